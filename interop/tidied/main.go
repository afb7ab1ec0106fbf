// Decodes untidy rows of interop/rows, and what they are rewritten as, with Go's own encoding/gob, and compares the values.
//
//	tools/rows.py FOLDER && (cd interop && go run ./tidied FOLDER)
package main

import (
	"bytes"
	"encoding/gob"
	"fmt"
	"log"
	"os"
	"path/filepath"
	"reflect"
)

type point struct{ X, Y int }

type dropped struct {
	A bool
	B int
	C uint
	D float64
	E complex128
	F []byte
	G string
	H []int
}

// text encodes itself.
type text string

func (t *text) GobDecode(b []byte) error {
	*t = text("decoded " + string(b))
	return nil
}

func (t text) GobEncode() ([]byte, error) { return []byte(t), nil }

type kept struct {
	A [2]int
	B map[string]int
	// Go skips C, a struct without fields, to which it decodes nothing
	D any
	E text
}

// the rows, and room for a value of each
var rooms = map[string]func() any{
	"a struct with a zero":                         func() any { return new(point) },
	"a zero of each kind that the tidy form drops": func() any { return new(dropped) },
	"a zero of each kind that the tidy form keeps": func() any { return new(kept) },
	"zeros in the structs of a slice":              func() any { return new([]point) },
}

func decoded(path string, room any) any {
	stream, err := os.ReadFile(path)
	if err != nil {
		log.Fatal(err)
	}
	if err := gob.NewDecoder(bytes.NewReader(stream)).Decode(room); err != nil {
		log.Fatalf("%s: %v", path, err)
	}
	return room
}

func main() {
	names, err := filepath.Glob(os.Args[1] + "/*/name")
	if err != nil {
		log.Fatal(err)
	}
	same := 0
	for _, path := range names {
		name, err := os.ReadFile(path)
		if err != nil {
			log.Fatal(err)
		}
		room, is := rooms[string(name)]
		if !is {
			continue
		}
		folder := filepath.Dir(path)
		before, after := decoded(folder+"/gob", room()), decoded(folder+"/tidy", room())
		if !reflect.DeepEqual(before, after) {
			log.Fatalf("%s: %v, %v", name, before, after)
		}
		fmt.Printf("%s: %+v\n", name, reflect.ValueOf(after).Elem())
		same++
	}
	fmt.Printf("%d the same\n", same)
}
