clean:
	rm -f cart
