// Decodes a stream into the Go types that wrote it, and prints what Go's encoding/json makes of each value, a line each.
// Where it makes nothing, as of a complex number, or the fields of what encodes itself in a gob, a type beside those of
// main.go says what stands in plain JSON: the parts of the number, or the bytes.
package main

import (
	"encoding/gob"
	"encoding/json"
	"io"
	"log"
	"math"
	"math/big"
	"net/netip"
	"os"
	"reflect"
	"time"
)

// Floats has floats at the ends of their range, and between.
type Floats struct {
	Ends    []float64
	Singles []float32
	Plain   float64
}

// Zones has times in zones, of which one has seconds.
type Zones struct {
	At     time.Time
	Before []time.Time
	Named  map[string]time.Time
}

// Maps has maps in maps, whose keys are texts and whole numbers.
type Maps struct {
	Deep    map[string]map[int][]string
	Counts  map[uint8]uint64
	Flags   map[int64]bool
	Inners  map[string]Inner
	Nothing map[string]int
}

// Session has maps whose keys are interfaces, as session stores keep them.
type Session struct {
	Values map[interface{}]interface{}
	Counts map[interface{}]int
	Empty  map[interface{}]string
}

// Word is a text of a type of its own.
type Word string

// Numbers has numbers as large as they come.
type Numbers struct {
	Least int64
	Most  uint64
	Big   big.Int
	Bigs  []big.Int
}

func init() {
	gob.Register(Word(""))
	gob.Register([]string{})
	gob.Register(map[interface{}]interface{}{})
	streams["floats"] = func() {
		encode(os.Stdout, Floats{
			Ends: []float64{
				math.MaxFloat64, -math.MaxFloat64, math.SmallestNonzeroFloat64, 2.2250738585072014e-308, 0.1, 1.0 / 3,
				1e21, 1e-7, 123456789, 1 << 53, math.Copysign(0, -1), 5e-324, 9007199254740993, 1e22, 1e23, math.Pi,
			},
			Singles: []float32{math.MaxFloat32, math.SmallestNonzeroFloat32, 0.1, 16777216},
			Plain:   17,
		}, 0.5, []float64{})
	}
	streams["zones"] = func() {
		india := time.FixedZone("IST", 5*3600+1800)
		pacific := time.FixedZone("PST", -8*3600)
		seconds := time.FixedZone("LMT", 3600+60+59)
		at := time.Date(2026, 11, 27, 7, 33, 5, 120000000, india)
		encode(os.Stdout, Zones{
			At: at,
			Before: []time.Time{
				at.UTC(), at.In(pacific), time.Date(1969, 12, 31, 23, 59, 59, 999999999, time.UTC), {},
				time.Date(9999, 12, 31, 23, 59, 59, 999999999, time.UTC),
			},
			Named: map[string]time.Time{"new year": time.Date(2000, 1, 1, 0, 0, 0, 1, pacific)},
		}, at, time.Date(1880, 1, 1, 0, 0, 0, 0, seconds))
	}
	streams["maps"] = func() {
		encode(os.Stdout, Maps{
			Deep:   map[string]map[int][]string{"a": {-3: {"x", ""}, 0: nil}, "": {}},
			Counts: map[uint8]uint64{0: 0, 255: math.MaxUint64},
			Flags:  map[int64]bool{math.MinInt64: true},
			Inners: map[string]Inner{"\u00e9\"\\": {"n", true}, "\x7f": {}},
		}, map[string]map[string]bool{"": nil})
	}
	streams["session"] = func() {
		inner := map[interface{}]interface{}{"at": 5, "\u00e9\"": nil}
		encode(os.Stdout, Session{
			map[interface{}]interface{}{"user": "ann", Word("lang"): "de", "roles": []string{"a", ""}, "seen": inner},
			map[interface{}]int{"a": 1, Word("b"): 0}, map[interface{}]string{},
		}, map[interface{}]interface{}{}, map[interface{}]interface{}{2: "b"},
			[]map[interface{}]string{{"a": "b"}, {true: "c"}})
	}
	streams["numbers"] = func() {
		var power big.Int
		power.Exp(big.NewInt(10), big.NewInt(40), nil)
		encode(os.Stdout, &Numbers{math.MinInt64, math.MaxUint64, power, []big.Int{*big.NewInt(0), *big.NewInt(-255), *big.NewInt(7)}},
			&Numbers{})
	}
}

// The values of each stream, in order, by a value of the type of each.
var decoded = map[string][]interface{}{
	"basics":       {Basics{}, Basics{}, Basics{}},
	"nested":       {Nested{}, Nested{}},
	"lists":        {Lists{}, Lists{}},
	"index":        {Index{}, map[string]int{}},
	"tree":         {Tree{}},
	"couple":       {Husband{}},
	"time":         {time.Time{}, Event{}, Event{}},
	"colors":       {Color{}, []Color{}, map[string]Color{}},
	"addresses":    {netip.Addr{}, netip.Addr{}, netip.Addr{}},
	"page":         {Page{}, Page{}},
	"nothing":      {Holder{}, []interface{}{}},
	"several":      {0, "", Point{}, []byte{}, []int{}, Point{}, false, 0.0, Inner{}, uint(0), [2]string{}},
	"out-of-order": {Outer{}},
	"unused":       {Unused{}},
	"floats":       {Floats{}, 0.0, []float64{}},
	"zones":        {Zones{}, time.Time{}, time.Time{}},
	"maps":         {Maps{}, map[string]map[string]bool{}},
	"numbers":      {Numbers{}, Numbers{}},
	"session":      {Session{}, map[interface{}]interface{}{}, map[interface{}]interface{}{}, []map[interface{}]string{}},
}

func printJSON(in io.Reader, kinds []interface{}) {
	decoder := gob.NewDecoder(in)
	encoder := json.NewEncoder(os.Stdout)
	encoder.SetEscapeHTML(false)
	for _, kind := range kinds {
		value := reflect.New(reflect.TypeOf(kind))
		if err := decoder.DecodeValue(value); err != nil {
			log.Fatal(err)
		}
		if err := encoder.Encode(plain(value.Elem().Interface())); err != nil {
			log.Fatal(err)
		}
	}
}

// What encoding/json is given in place of a value of which it makes nothing.
func plain(value interface{}) interface{} {
	switch v := value.(type) {
	case Basics:
		return struct {
			Truth   bool
			Int     int
			Small   int8
			Uint    uint
			Byte    byte
			Single  float32
			Double  float64
			Pair    [2]float64
			Complex [2]float64
			Text    string
			Bytes   []byte
		}{
			v.Truth, v.Int, v.Small, v.Uint, v.Byte, v.Single, v.Double,
			[2]float64{float64(real(v.Pair)), float64(imag(v.Pair))}, [2]float64{real(v.Complex), imag(v.Complex)},
			v.Text, v.Bytes,
		}
	case Numbers:
		bigs := []*big.Int{}
		for i := range v.Bigs {
			bigs = append(bigs, &v.Bigs[i])
		}
		return struct {
			Least int64
			Most  uint64
			Big   *big.Int
			Bigs  []*big.Int
		}{v.Least, v.Most, &v.Big, bigs}
	case Session:
		return struct{ Values, Counts, Empty interface{} }{plain(v.Values), entries(v.Counts), entries(v.Empty)}
	case map[interface{}]interface{}:
		return entries(v)
	case []map[interface{}]string:
		var all []interface{}
		for _, one := range v {
			all = append(all, entries(one))
		}
		return all
	case Page:
		return struct {
			Address string
			Hits    int
		}{v.Address.String(), v.Hits}
	}
	return value
}

// The entries of a map whose keys are interfaces: where each is a text an object, and else its pairs.
func entries(of interface{}) interface{} {
	object := map[string]interface{}{}
	var pairs [][2]interface{}
	names := true
	for entry := reflect.ValueOf(of).MapRange(); entry.Next(); {
		key, element := entry.Key().Elem(), plain(entry.Value().Interface())
		pairs = append(pairs, [2]interface{}{key.Interface(), element})
		if key.Kind() == reflect.String {
			object[key.String()] = element
		} else {
			names = false
		}
	}
	if names {
		return object
	}
	return pairs
}

// MarshalJSON gives the bytes that the color is in a gob.
func (c Color) MarshalJSON() ([]byte, error) {
	return json.Marshal([]byte{c.red, c.green, c.blue})
}
