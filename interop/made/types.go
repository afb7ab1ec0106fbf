package main

import (
	"math/big"
	"net/netip"
	"time"
)

// Login is what the first lines say.
type Login struct {
	User  string
	Tries int
	At    time.Time
	Tags  map[string][]int
}

type Basics struct {
	Truth                  bool
	I                      int
	I8                     int8
	I16                    int16
	I32                    int32
	I64                    int64
	U                      uint
	U8, Byte               uint8
	U16                    uint16
	U32                    uint32
	U64                    uint64
	F32                    float32
	F64                    float64
	Text                   string
	Raw                    []byte
	Letter                 rune
	hidden, alsoHidden     int
	Channel                chan int       `json:"-"`
	Function               func(int) bool `json:"-"`
	SendOnly, AlsoSendOnly chan<- string  `json:"-"`
}

type Point struct{ X, Y int }

type Nested struct {
	Name string
	At   Point
	Path []Point
	Grid [2][3]int
	By   map[string]Point
}

type Tree struct {
	Value       int
	Left, Right *Tree
}

type Times struct {
	At  time.Time
	All []time.Time
	Opt *time.Time
}

type Numbers struct {
	Big big.Int
	Ptr *big.Int
	All []*big.Int
}

type Addresses struct {
	Host   netip.Addr
	Port   netip.AddrPort
	Prefix netip.Prefix
}

type Maps struct {
	ByInt  map[int]string
	ByUint map[uint8]bool
	Deep   map[string]map[string]int
}

type (
	Celsius float64
	Kind    int
	Names   []string
	Hours   map[Kind]Celsius
)

type Weather struct {
	Degrees Celsius
	Names   Names
	Kind    Kind
	Hours   Hours
}

type Pointers struct {
	I *int
	S *string
	P **int
	L *[]int
	M *map[string]*Point
}

type Arrays struct {
	A [3]int
	B [2]string
	C [4]byte
	D [2]Point
}

type Slices struct {
	Bools  []bool
	Floats []float64
	Texts  []string
	Raws   [][]byte
	Deep   [][][]int
	Small  []int8
	Points []*Point
}

type Clock struct {
	D time.Duration
	M time.Month
	W time.Weekday
}

type Held struct {
	Any  any
	Face interface{}
	N    int
}

type Chain struct {
	Next *Chain
	Node struct {
		Value int
		Marks []struct{ At, Of uint }
	}
}

type Ints []int
type Words map[string]int
type Flag bool
type Title string
type Pair [2]float64
type Moment = time.Time
type Moments []Moment
type Count uint64
