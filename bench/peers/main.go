// Streams to measure with, and what Go's own encoding/gob takes for them: what `gob` is measured beside.
//
//	peers make KIND BYTES >FILE    a stream of some such bytes
//	peers discard KIND FILE        decodes it into nothing
//	peers decode KIND FILE         decodes it
//	peers json KIND FILE           decodes it, and prints a line of JSON for each value
//	peers recode KIND FILE         decodes it, and encodes it again
package main

import (
	"bufio"
	"encoding/gob"
	"encoding/json"
	"fmt"
	"io"
	"log"
	"os"
	"strconv"
)

// Record is a small struct, as services send them.
type Record struct {
	Id     int
	Name   string
	Weight float64
	Counts []int
}

// Message is one small int.
type Message struct{ N int }

// Lists nest.
type Lists []Lists

// Tree is a binary tree.
type Tree struct {
	V           int
	Left, Right *Tree
}

// Deep has a tree and nested lists.
type Deep struct {
	Tree  *Tree
	Lists Lists
}

// Event has an interface.
type Event struct {
	At   int
	Held any
}

// kind is a sort of stream: its n-th value, and room for a value that is decoded.
type kind struct {
	value func(n int) any
	room  func() any
}

var kinds = map[string]kind{
	"records": {func(n int) any { return record(n) }, func() any { return new(Record) }},
	"ints":    {func(n int) any { return ints(n, 4096) }, func() any { return new([]int) }},
	"sizes":   {func(n int) any { return sizes(n, 4096) }, func() any { return new([]int) }},
	"msgs":    {func(n int) any { return Message{n%100 + 1} }, func() any { return new(Message) }},
	"strings": {func(n int) any { return texts(n) }, func() any { return new([]string) }},
	"maps":    {func(n int) any { return scores(n) }, func() any { return new(map[string]int) }},
	"deep":    {func(n int) any { return deep(n) }, func() any { return new(Deep) }},
	"held":    {func(n int) any { return Event{n, held(n)} }, func() any { return new(Event) }},
}

// one item each
var large = map[string]kind{
	"one-ints":    {func(n int) any { return ints(n, 14000000) }, func() any { return new([]int) }},
	"one-records": {func(n int) any { return records(1350000) }, func() any { return new([]Record) }},
	"one-map":     {func(n int) any { return recordsByName(970000) }, func() any { return new(map[string]Record) }},
	"one-held":    {func(n int) any { return manyHeld(1000000) }, func() any { return new([]any) }},
}

func record(n int) Record {
	return Record{n, fmt.Sprint("record ", n), float64(n) / 8, []int{n % 7, n, -n}}
}

func ints(n, count int) []int {
	list := make([]int, count)
	for i := range list {
		list[i] = (n*7919 + i*104729) % 100000
	}
	return list
}

// sizes makes ints whose spellings are drawn evenly from all sizes, of one byte to nine.
func sizes(n, count int) []int {
	list := make([]int, count)
	drawn := uint64(n)*0x9e3779b97f4a7c15 + 1
	for i := range list {
		drawn ^= drawn << 13
		drawn ^= drawn >> 7
		drawn ^= drawn << 17
		bits := 7
		if digits := int(drawn % 9); digits > 0 {
			bits = 8 * digits
		}
		spelled := drawn*0x9e3779b97f4a7c15>>(64-bits) | 1<<(bits-1)
		list[i] = int(spelled>>1) ^ -int(spelled&1)
	}
	return list
}

func texts(n int) []string {
	list := make([]string, 8)
	for i := range list {
		text := make([]byte, 400+(n*31+i*17)%800)
		for at := range text {
			text[at] = byte('a' + (n+i+at)%26)
		}
		list[i] = string(text)
	}
	return list
}

func scores(n int) map[string]int {
	pairs := make(map[string]int)
	for i := 0; i < 20; i++ {
		pairs["key "+strconv.Itoa(n%1000*20+i)] = n + i
	}
	return pairs
}

func tree(depth, n int) *Tree {
	if depth == 0 {
		return nil
	}
	return &Tree{n, tree(depth-1, 2*n), tree(depth-1, 2*n+1)}
}

func deep(n int) Deep {
	lists := Lists{}
	for depth := 0; depth < 100; depth++ {
		lists = Lists{lists, Lists{}}
	}
	return Deep{tree(6, n%50+1), lists}
}

func records(count int) []Record {
	list := make([]Record, count)
	for n := range list {
		list[n] = record(n)
	}
	return list
}

func recordsByName(count int) map[string]Record {
	pairs := make(map[string]Record)
	for n := 0; n < count; n++ {
		one := record(n)
		pairs[one.Name] = one
	}
	return pairs
}

// held is a small value for an interface: an int, a string or a struct.
func held(n int) any {
	switch n % 3 {
	case 0:
		return n
	case 1:
		return "text " + strconv.Itoa(n%100)
	}
	return Message{n%100 + 1}
}

func manyHeld(count int) []any {
	list := make([]any, count)
	for n := range list {
		list[n] = held(n)
	}
	return list
}

// counter counts what is written.
type counter struct {
	to    io.Writer
	bytes int
}

func (c *counter) Write(p []byte) (int, error) {
	c.bytes += len(p)
	return c.to.Write(p)
}

func check(err error) {
	if err != nil {
		log.Fatal(err)
	}
}

func create(name string, bytes int) {
	out := bufio.NewWriterSize(os.Stdout, 65536)
	count := &counter{out, 0}
	encoder := gob.NewEncoder(count)
	if one, is := large[name]; is {
		check(encoder.Encode(one.value(0)))
	} else {
		for n := 0; count.bytes < bytes; n++ {
			check(encoder.Encode(kinds[name].value(n)))
		}
	}
	check(out.Flush())
}

func read(how, name, path string) {
	one, is := kinds[name]
	if !is {
		one = large[name]
	}
	file, err := os.Open(path)
	check(err)
	decoder := gob.NewDecoder(bufio.NewReaderSize(file, 65536))
	out := bufio.NewWriterSize(os.Stdout, 65536)
	lines := json.NewEncoder(out)
	encoder := gob.NewEncoder(out)
	for {
		room := any(nil)
		if how != "discard" {
			room = one.room()
		}
		if err := decoder.Decode(room); err == io.EOF {
			break
		} else {
			check(err)
		}
		switch how {
		case "json":
			check(lines.Encode(room))
		case "recode":
			check(encoder.Encode(room))
		}
	}
	check(out.Flush())
}

func main() {
	gob.Register(Message{})
	if os.Args[1] == "make" {
		bytes, err := strconv.Atoi(os.Args[3])
		check(err)
		create(os.Args[2], bytes)
		return
	}
	read(os.Args[1], os.Args[2], os.Args[3])
}
