all: stock.o shelf.o

%.o: %.c
	gcc -Wall -Wextra -c $<
