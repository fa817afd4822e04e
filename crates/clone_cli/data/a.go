package main

func f(a int) int {
	b := a + 1
	b = b * 2
	return b
}

func g(x int) int {
	y := x + 5
	y = y * 2
	return y
}
