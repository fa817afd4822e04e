package main

import "fmt"

// An item of the store: its number, how many of it there are, and what one of it costs, in cents.
type item struct {
	number int
	count  int
	price  int
}

const (
	none    = -1
	newline = 10
	blank   = 32
	zero    = 48
	nine    = 57
)

// readByte gives the next byte of the input, and -1 behind its end.
func readByte() int

// skipBlanks gives the next byte that is no blank.
func skipBlanks() int {
	b := readByte()
	for b == blank {
		b = readByte()
	}
	return b
}

func isDigit(b int) bool {
	return zero <= b && b <= nine
}

// readNumber reads a number, and the byte behind it.
func readNumber() int {
	b := skipBlanks()
	n := 0
	for isDigit(b) {
		n = n*10 + b - zero
		b = readByte()
	}
	return n
}

// readPrice reads a price in whole francs, and gives it in cents.
func readPrice() int {
	c := skipBlanks()
	sum := 0
	for isDigit(c) {
		sum = sum*10 + c - zero
		c = readByte()
	}
	return sum * 100
}

// add puts some of an item into the store.
func add(items []item, number int, count int) []item {
	for i := range items {
		if items[i].number == number {
			items[i].count += count
			return items
		}
	}
	return append(items, item{number: number, count: count, price: 0})
}

// setPrice gives an item its price.
func setPrice(items []item, number int, price int) []item {
	for i := range items {
		if items[i].number == number {
			items[i].price = price
			return items
		}
	}
	return append(items, item{number: number, count: 0, price: price})
}

// take takes some of an item out of the store, no more than there are, and gives how many.
func take(items []item, number int, count int) int {
	taken := 0
	for i := range items {
		if items[i].number == number {
			taken = count
			if items[i].count < taken {
				taken = items[i].count
			}
			items[i].count -= taken
		}
	}
	return taken
}

// worth is what all that is in the store costs.
func worth(items []item) int {
	total := 0
	for _, it := range items {
		total += it.count * it.price
	}
	return total
}

// dearest is the place of the item with the highest price.
func dearest(items []item) int {
	best := none
	for i := range items {
		if best == none || items[best].price < items[i].price {
			best = i
		}
	}
	return best
}

// fullest is the place of the item of which there are most.
func fullest(items []item) int {
	most := none
	for i := range items {
		if most == none || items[most].count < items[i].count {
			most = i
		}
	}
	return most
}

// sortByNumber puts the items in the order of their numbers.
func sortByNumber(items []item) {
	for i := 1; i < len(items); i++ {
		moved := items[i]
		j := i
		for j > 0 && items[j-1].number > moved.number {
			items[j] = items[j-1]
			j--
		}
		items[j] = moved
	}
}

// report prints the store.
func report(items []item) {
	sortByNumber(items)
	for _, it := range items {
		fmt.Println(it.number, it.count, it.price)
	}
	fmt.Println("worth", worth(items))
	if best := dearest(items); best != none {
		fmt.Println("dearest", items[best].number)
	}
	if most := fullest(items); most != none {
		fmt.Println("fullest", items[most].number)
	}
}

func main() {
	items := []item{}
	for {
		switch skipBlanks() {
		case 'a':
			number := readNumber()
			items = add(items, number, readNumber())
		case 'p':
			number := readNumber()
			items = setPrice(items, number, readPrice())
		case 't':
			number := readNumber()
			fmt.Println("taken", take(items, number, readNumber()))
		case 'r':
			report(items)
		case newline:
		default:
			return
		}
	}
}
