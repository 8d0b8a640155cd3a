# 🍎 apples, 🍐 pears
price = {"🍎": 3, "🍐": "4"}
total = price["🍎"] + price["🍐"]
