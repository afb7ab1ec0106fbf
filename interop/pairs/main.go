// Prints what Go's own decoder makes of pairs of types: a line for each, with what was sent, what it was decoded into,
// and the value that came of it or the error. The answers are kept beside this file, in the table of README.md.
package main

import (
	"bytes"
	"encoding/gob"
	"fmt"
	"reflect"
)

type AB struct{ A, B int }
type BA struct{ B, A int }
type BC struct{ B, C int }
type CD struct{ C, D int }
type ABUint struct {
	A int
	B uint
}
type Empty struct{}
type Lower struct{ Name string }
type Upper struct{ NAME string }

type List []List
type Deep [][]Deep

type Node struct {
	V    int
	Next *Node
}
type First struct{ Next *Second }
type Second struct {
	V    uint
	Next *First
}

type V struct{ V int }
type VUint struct{ V uint }
type BothSent struct {
	A V
	B VUint
}
type OneWanted struct{ A, B V }

type Inner struct {
	A int
	P V
}
type InnerOther struct {
	A int
	P struct{ W int }
}
type InnerUint struct {
	A int
	P VUint
}
type Ignored struct{ A int }

type Held struct {
	A int
	I any
}

type Stamp struct{ text string }

func (s Stamp) GobEncode() ([]byte, error) { return []byte(s.text), nil }
func (s *Stamp) GobDecode(b []byte) error  { s.text = string(b); return nil }

type Mark struct{ text string }

func (s Mark) GobEncode() ([]byte, error) { return []byte(s.text), nil }
func (s *Mark) GobDecode(b []byte) error  { s.text = string(b); return nil }

type Packed struct{ text string }

func (p Packed) MarshalBinary() ([]byte, error)  { return []byte(p.text), nil }
func (p *Packed) UnmarshalBinary(b []byte) error { p.text = string(b); return nil }

type Sealed struct{ text string }

func (s Sealed) MarshalBinary() ([]byte, error)  { return []byte(s.text), nil }
func (s *Sealed) UnmarshalBinary(b []byte) error { s.text = string(b); return nil }

// Sends a value, decodes it into a new value of the type of `wanted`, and prints what comes of it.
func try(what string, sent, wanted any) {
	var stream bytes.Buffer
	if err := gob.NewEncoder(&stream).Encode(sent); err != nil {
		fmt.Printf("%s: not sent: %v\n", what, err)
		return
	}
	made := reflect.New(reflect.TypeOf(wanted))
	if err := gob.NewDecoder(&stream).Decode(made.Interface()); err != nil {
		fmt.Printf("%s: refused: %v\n", what, err)
		return
	}
	fmt.Printf("%s: %+v\n", what, made.Elem().Interface())
}

func main() {
	try("int into int", 1, 0)
	try("int into int8", 1, int8(0))
	try("300 into int8", 300, int8(0))
	try("int into uint", 1, uint(0))
	try("int into float64", 1, 0.0)
	try("[]byte into string", []byte("a"), "")
	try("{A, B} into {B, C}", AB{1, 2}, BC{})
	try("{A, B} into {B, A}", AB{1, 2}, BA{})
	try("{A, B} into {A int, B uint}", AB{1, 2}, ABUint{})
	try("{A} into {A int, B uint}, B absent", AB{1, 0}, ABUint{})
	try("{A, B} into {C, D}", AB{1, 2}, CD{})
	try("{A, B} into {}", AB{1, 2}, Empty{})
	try("{} into {}", Empty{}, Empty{})
	try("{Name} into {NAME}", Lower{"a"}, Upper{})
	try("{A, P {V}} into {A, P {W}}", Inner{1, V{2}}, InnerOther{})
	try("{A, P {V}} into {A, P {V uint}}", Inner{1, V{2}}, InnerUint{})
	try("{A, P {V}} into {A, P {V uint}}, P absent", Inner{1, V{}}, InnerUint{})
	try("{A, P {V}} into {A}", Inner{1, V{2}}, Ignored{})
	try("[2]int into [2]int", [2]int{1, 2}, [2]int{})
	try("[2]int into [3]int", [2]int{1, 2}, [3]int{})
	try("[2]int into []int", [2]int{1, 2}, []int{})
	try("map[string]int into map[string]uint", map[string]int{"a": 1}, map[string]uint{})
	try("map[string]int into map[int]int", map[string]int{"a": 1}, map[int]int{})
	try("List []List into Deep [][]Deep", List{List{}, List{List{}}}, Deep{})
	try("Node {V, Next Node} into First {Next Second}", Node{1, &Node{2, nil}}, First{})
	try("{A {V int}, B {V uint}} into {A, B {V int}}", BothSent{V{1}, VUint{2}}, OneWanted{})
	try("{A, I nil} into itself", Held{1, nil}, Held{})
	try("Stamp into Mark, both GobEncoder", Stamp{"a"}, Mark{})
	try("Stamp, a GobEncoder, into {A, B}", Stamp{"a"}, AB{})
	try("Packed into Sealed, both BinaryMarshaler", Packed{"a"}, Sealed{})
	try("Packed, a BinaryMarshaler, into Mark, a GobEncoder", Packed{"a"}, Mark{})
}
