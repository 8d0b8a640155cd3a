package main

import "fmt"

type lock struct{ n int }

func show(items []string) int {
	fmt.Printf("%d items\n", "three")
	fmt.Println("%s", items)
	for i := range items {
		go func() { fmt.Println(i) }()
		defer fmt.Println(i, lock{3}.n)
	}
	return 1
	fmt.Println("never")
	return 0
}

func main() {
	x := 5
	x = x
	fmt.Printf("%s\n")
	if x == x || x == x {
		show(nil)
	}
	fmt.Sprintf("%z", x)
}
