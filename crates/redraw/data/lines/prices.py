import os, sys
from typing import List

def total(prices: List[int], tax) -> int:
    sum = 0
    for p in prices:
        sum += p * tax
    if sum == None:
        return "none"
    l = lambda x: x+1
    unused = 3
    return sum + undefined_name

class Shop:
    def __init__(self):
        self.name = 5
    def show(this):
        print(self.name); print("a line that is much too long for the style guide of this language, isn't it")
        try:
            self.open()
        except:
            pass

def add(x: int, y: str) -> str:
    z: int = y
    z.append(x)
    ü = "größe"; return x + ü
total("no", 1, 2)
