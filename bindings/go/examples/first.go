// first decodes points behind a Reader, of which the last is damaged.
package main

import (
	"bytes"
	"encoding/gob"
	"fmt"

	"gobcheck"
)

type point struct{ X, Y int }

func main() {
	var sent bytes.Buffer
	encoder := gob.NewEncoder(&sent)
	encoder.Encode(point{22, 33})
	encoder.Encode(point{44, 55})
	received := sent.Bytes()
	received[len(received)-3] = 9 // one byte is damaged

	decoder := gob.NewDecoder(gobcheck.NewReader(bytes.NewReader(received), nil))
	for {
		var one point
		if err := decoder.Decode(&one); err != nil {
			fmt.Println(err) // io.EOF at the end of a whole stream
			return
		}
		fmt.Println(one)
	}
}
