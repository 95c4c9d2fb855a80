// Times restic's chunker on a file. Arguments: the file, minimum, maximum, pattern bits. For each line read it cuts the file once,
// from memory, and prints the nanoseconds that took.
package main

import (
	"bufio"
	"bytes"
	"fmt"
	"io"
	"log"
	"os"
	"strconv"
	"time"

	"github.com/restic/chunker"
)

// An irreducible polynomial of degree 53, as restic draws one for each repository.
const polynomial = chunker.Pol(0x3DA3358B4DC173)

func number(word string) int {
	value, err := strconv.Atoi(word)
	if err != nil {
		log.Fatal(err)
	}
	return value
}

func cut(file []byte, minimum, maximum uint, bits int) {
	pieces := chunker.NewWithBoundaries(bytes.NewReader(file), polynomial, minimum, maximum)
	pieces.SetAverageBits(bits)
	room := make([]byte, maximum)
	for {
		_, err := pieces.Next(room)
		if err == io.EOF {
			return
		}
		if err != nil {
			log.Fatal(err)
		}
	}
}

func main() {
	file, err := os.ReadFile(os.Args[1])
	if err != nil {
		log.Fatal(err)
	}
	minimum, maximum, bits := uint(number(os.Args[2])), uint(number(os.Args[3])), number(os.Args[4])
	turns := bufio.NewScanner(os.Stdin)
	for turns.Scan() {
		start := time.Now()
		cut(file, minimum, maximum, bits)
		fmt.Println(time.Since(start).Nanoseconds())
	}
}
