package main

import (
	"fmt"
	"os"
	"strconv"
)

func main() {
	size, _ := strconv.Atoi(os.Args[1])
	counts, tripled, done := make(chan int32), make(chan int32), make(chan int32)
	go func() {
		for k := int32(0); k < int32(size); k++ {
			counts <- k
		}
	}()
	go func() {
		for k := 0; k < size; k++ {
			tripled <- <-counts * 3
		}
	}()
	go func() {
		var sum int32
		for k := 0; k < size; k++ {
			sum = (sum + <-tripled) % 1000000
		}
		done <- sum
	}()
	fmt.Println(<-done)
}
