#include <string>
#include <vector>

struct Item { virtual void show(); std::string name; };

class Cart {
    std::vector<Item> items;
    int size;
public:
    Cart() {}
    void add(Item item) { items.push_back(item); }
    int total() const { for (int i = 0; i < items.size(); i++) {} return size; }
    std::string first() { return items[0].nam; }
};

template <typename T> T larger(T a, T b) { return a > b ? a : b; }

int main() {
    Cart cart;
    cart.remove(1);
    auto x = larger(1, "2");
    int *p = 0;
    std::string s = 5;
    cart.add(3);
    return *p
}
