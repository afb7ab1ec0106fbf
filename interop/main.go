// Writes the gob streams beside this file with the encoder of Go's own encoding/gob: one stream, named by the
// argument, to standard output. Each is written by a process of its own, since Go numbers types as it meets them.
package main

import (
	"encoding/gob"
	"errors"
	"io"
	"log"
	"math"
	"math/big"
	"net/netip"
	"net/url"
	"os"
	"time"
)

// Basics has a field of every basic kind.
type Basics struct {
	Truth   bool
	Int     int
	Small   int8
	Uint    uint
	Byte    byte
	Single  float32
	Double  float64
	Pair    complex64
	Complex complex128
	Text    string
	Bytes   []byte
}

// Base is embedded in Nested, which holds an Inner as well.
type Base struct {
	Id int
}

type Inner struct {
	Name string
	Ok   bool
}

type Nested struct {
	Base `json:"Base"`
	One  Inner
	Two  *Inner
}

type Point struct {
	X, Y int
}

type Lists struct {
	Path   []Point
	Ends   [2]Point
	Bits   [3]bool
	Matrix [][]float64
	Names  []string
}

type Index struct {
	Lines map[string][]int
	Empty map[int]string
}

// Tree names itself.
type Tree struct {
	Value       int
	Left, Right *Tree
}

// Husband and Wife name each other.
type Husband struct {
	Name string
	Wife *Wife
}

type Wife struct {
	Name    string
	Husband *Husband
}

type Event struct {
	At   time.Time
	Note string
}

// Color encodes itself by MarshalBinary.
type Color struct {
	red, green, blue byte
}

func (c Color) MarshalBinary() ([]byte, error) {
	return []byte{c.red, c.green, c.blue}, nil
}

func (c *Color) UnmarshalBinary(b []byte) error {
	if len(b) != 3 {
		return errors.New("a color has three bytes")
	}
	*c = Color{b[0], b[1], b[2]}
	return nil
}

// Page holds a type whose MarshalBinary has a pointer receiver: Go encodes it only where it has an address.
type Page struct {
	Address url.URL
	Hits    int
}

type Holder struct {
	Any interface{}
	N   int
}

// Unused names Inner, and its value holds none.
type Unused struct {
	N     int
	Never *Inner
}

type Outer struct {
	First Inner
	Rest  []Inner
}

func encode(out io.Writer, values ...interface{}) {
	encoder := gob.NewEncoder(out)
	for _, value := range values {
		if err := encoder.Encode(value); err != nil {
			log.Fatal(err)
		}
	}
}

var streams = map[string]func(){
	"basics": func() {
		encode(os.Stdout,
			Basics{true, -129, -1, 1 << 63, 200, 0.5, 17, complex(1, -2), complex(0, 3), "gob\xff", []byte{0, 255}},
			Basics{Int: math.MinInt64, Uint: math.MaxUint64, Double: math.Copysign(0, -1)},
			Basics{})
	},
	"nested": func() {
		encode(os.Stdout, Nested{Base{7}, Inner{"a", true}, &Inner{Name: "b"}}, Nested{})
	},
	"lists": func() {
		encode(os.Stdout,
			Lists{
				Path:   []Point{{1, 2}, {}, {0, -3}},
				Ends:   [2]Point{{}, {4, 0}},
				Bits:   [3]bool{true, false, true},
				Matrix: [][]float64{{1}, {}, {2, 0}},
				Names:  []string{"", "é"},
			},
			Lists{})
	},
	"index": func() {
		encode(os.Stdout, Index{Lines: map[string][]int{"key": {1, 0, 2}}}, map[string]int{"top": 5})
	},
	"tree": func() {
		encode(os.Stdout, Tree{1, &Tree{2, nil, &Tree{3, nil, nil}}, &Tree{}})
	},
	"couple": func() {
		encode(os.Stdout, Husband{"h", &Wife{"w", &Husband{"g", nil}}})
	},
	"time": func() {
		at := time.Unix(1, 5).UTC()
		encode(os.Stdout, at, Event{at, "now"}, Event{})
	},
	"colors": func() {
		encode(os.Stdout, Color{1, 2, 255}, []Color{{1, 2, 3}, {}}, map[string]Color{"red": {255, 0, 0}})
	},
	"addresses": func() {
		encode(os.Stdout, netip.MustParseAddr("192.0.2.1"), netip.MustParseAddr("::1"), netip.Addr{})
	},
	"page": func() {
		address, err := url.Parse("http://a.b/c?d=e")
		if err != nil {
			log.Fatal(err)
		}
		encode(os.Stdout, &Page{*address, 3}, &Page{})
	},
	"nothing": func() {
		encode(os.Stdout, Holder{N: 1}, []interface{}{nil, nil})
	},
	"several": func() {
		encode(os.Stdout, 3, "three", Point{0, 1}, []byte{}, []int{1, 2}, Point{}, true, 2.5, Inner{Ok: true}, uint(9), [2]string{"x", ""})
	},
	// Inner has its number from another stream, so the numbers fall in this one.
	"out-of-order": func() {
		encode(io.Discard, Inner{})
		encode(os.Stdout, Outer{Inner{"f", false}, []Inner{{"r", true}}})
	},
	"unused": func() {
		encode(os.Stdout, Unused{N: 6})
	},
	// What is left out: an interface that holds a value, and a description that says another number than its own.
	"held": func() {
		gob.Register(Point{})
		encode(os.Stdout, Point{1, 2}, Holder{Point{3, 4}, 5})
	},
	"pointer": func() {
		encode(os.Stdout, big.NewInt(5))
	},
}

func main() {
	switch {
	case len(os.Args) == 2 && streams[os.Args[1]] != nil:
		streams[os.Args[1]]()
	case len(os.Args) == 3 && os.Args[1] == "json" && decoded[os.Args[2]] != nil:
		printJSON(os.Stdin, decoded[os.Args[2]])
	default:
		log.Fatal("usage: interop [json] NAME, of a stream in main.go or plain.go")
	}
}
