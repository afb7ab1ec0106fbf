package main

import (
	"bytes"
	"encoding/gob"
	"fmt"
	"io"
	"log"
	"os"
	"reflect"
	"strings"
)

// mutated are the streams whose mutants Go judges: each byte replaced by each other one.
var mutated = []string{"list-of-five", "held-bigint", "field-int", "pointer-named", "pointers", "nest-two"}

// answers are what Go's decoder says, each by a letter and a text that its error has. All others have the letter of
// none.
var answers = []struct{ letter, text string }{
	{"n", "name not registered"},
	{"t", "wrong type"},
	{"t", "type mismatch"},
	{"t", "not assignable"},
	{"t", "no fields matched"},
	{"t", "decoding into local type"},
	{"t", "local interface type"},
	{"f", "empty name"},
	{"f", "value for"},
	{"v", "GobDecode"},
}

const none = "-"

// HoldsAlso is what Go takes of a Holds, whose own type it refuses.
type HoldsAlso struct{ P *Enc }

// wanted is what a value is decoded into.
func wanted(value any) reflect.Type {
	switch value.(type) {
	case Holds:
		return reflect.TypeOf(HoldsAlso{})
	}
	return reflect.Indirect(reflect.ValueOf(value)).Type()
}

// taken returns the letter of what Go's decoder says of these bytes, read as these values: = where it takes them.
func taken(values Some, stream []byte) (letter string) {
	defer func() {
		if recover() != nil {
			letter = "p"
		}
	}()
	if hasLongItem(stream) {
		return none
	}
	decoder := gob.NewDecoder(bytes.NewReader(stream))
	for _, value := range values {
		if err := decoder.DecodeValue(reflect.New(wanted(value))); err != nil {
			return letterOf(err)
		}
	}
	if err := decoder.DecodeValue(reflect.Value{}); err != io.EOF {
		return "m"
	}
	return "="
}

func letterOf(err error) string {
	for _, answer := range answers {
		if strings.Contains(err.Error(), answer.text) {
			return answer.letter
		}
	}
	if os.Getenv("VERBOSE") != "" {
		log.Print(err)
	}
	return none
}

// hasLongItem tells whether an item says that it has over a million bytes, for which Go would make room before it
// refuses it.
func hasLongItem(stream []byte) bool {
	for at := 0; at < len(stream); {
		count, digits := int(stream[at]), 0
		if count >= 0x80 {
			count, digits = 0, 256-count
		}
		for ; digits > 0 && at+1 < len(stream); digits-- {
			at++
			count = count<<8 | int(stream[at])
		}
		if count < 0 || count > 1<<20 {
			return true
		}
		at += 1 + count
	}
	return false
}

// printAnswers prints a line for each place of a stream: letters but that of none, and behind each the bytes of which
// Go says so.
func printAnswers(name string) {
	values, _ := streams[name]()
	stream, err := os.ReadFile("streams/" + name + ".gob")
	must(err)
	for place := range stream {
		fmt.Printf("%s %d", name, place)
		first, letter := 0, ""
		for b := 0; b <= 256; b++ {
			its := ""
			if b < 256 {
				mutant := append([]byte{}, stream...)
				mutant[place] = byte(b)
				its = taken(values, mutant)
			}
			if its != letter {
				if letter != "" && letter != none {
					fmt.Printf(" %s%02x-%02x", letter, first, b-1)
				}
				first, letter = b, its
			}
		}
		fmt.Println()
	}
}
