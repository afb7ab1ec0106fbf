// Writes streams in which interface values hold something with the encoder of Go's own encoding/gob, and beside each
// the lines that are due: NAME.gob and NAME.lines in a folder. Each is written by a process of its own, since Go
// numbers types as it meets them. The lines are made from the values that were encoded (lines.go), and not from the
// bytes. Last the stream is decoded by Go, which must give the values again.
package main

import (
	"bytes"
	"encoding/gob"
	"fmt"
	"io"
	"log"
	"math/big"
	"net/http"
	"net/http/httptest"
	"net/url"
	"os"
	"reflect"
	"strings"
	"time"

	"github.com/gorilla/securecookie"
	"github.com/gorilla/sessions"
	"github.com/patrickmn/go-cache"
)

type Reg struct{ A int }

type Pair struct{ A, B Reg }

type Both struct{ A, B any }

type Outer struct {
	N int
	I any
	M int
}

type Wrap struct {
	N int
	I any
	S string
}

type Point struct{ X, Y int }

// Node names itself, and holds any value.
type Node struct {
	V    any
	Next *Node
}

// Forest is a slice of itself, behind interfaces.
type Forest []any

type Event struct {
	At   time.Time
	What string
	Data any
}

type Grid [2]any

// Celsius is held where an interface asks for a method.
type Celsius float64

func (c Celsius) String() string { return fmt.Sprintf("%g C", float64(c)) }

type Reading struct {
	First, Second fmt.Stringer
}

// Enc encodes itself, and PtrEnc is a pointer to it that has a name.
type Enc struct{ text string }

func (e Enc) GobEncode() ([]byte, error) { return []byte(e.text), nil }
func (e *Enc) GobDecode(b []byte) error  { e.text = string(b); return nil }

type PtrEnc *Enc

type Holds struct{ P PtrEnc }

type User struct {
	Name  string
	Roles []string
}

var zeros = []any{0, "", []byte{}, false, uint(0), 0.0, 0i, Reg{}, []int{}, [2]bool{}, map[string]int{}, nil}

var long = strings.Repeat("long/", 30) + "Name"

// Some are the values that are encoded, one after another.
type Some []any

// of returns a pointer to an interface value, by which Go encodes that and not what it holds.
func of(value any) *any { return &value }

func must(err error) {
	if err != nil {
		log.Fatal(err)
	}
}

// streams are the values of each stream, and by whom they are encoded where that isn't Go's encoder itself.
var streams = map[string]func() (Some, []byte){
	"top-int":         plain(of(5)),
	"top-nil":         plain(of(nil)),
	"top-struct":      plain(of(Reg{3}), of(Reg{}), Reg{4}),
	"field-int":       plain(Outer{1, 3, 2}),
	"field-pair":      plain(Outer{4, Pair{Reg{3}, Reg{4}}, 5}),
	"nest-two":        plain(Outer{1, Wrap{2, Reg{3}, "s"}, 4}),
	"known-inside":    plain(Outer{1, Wrap{2, Reg{3}, "s"}, 4}, Outer{1, Wrap{2, 3, "s"}, 4}, Reg{7}, Wrap{0, Wrap{}, ""}),
	"slice-zeros":     plain(zeros),
	"list-of-five":    plain([]any{5}),
	"nils":            plain([]any{nil, 5, nil}, Outer{N: 1}, map[string]any{"k": nil}, Outer{1, Outer{}, 0}),
	"keys":            plain(map[any]any{Point{1, 2}: "p"}, map[any]int{uint8(7): 8}),
	"grid":            plain(Grid{Grid{1, nil}, Reg{2}}),
	"pointers":        plain(of(of(of(Point{1, 2})))),
	"methods":         plain(Reading{Celsius(17), nil}, Reading{nil, Celsius(0)}),
	"recursive":       plain(Node{Node{"in", &Node{V: 1}}, &Node{V: Reg{9}}}),
	"forest":          plain(Forest{Forest{}, Forest{Forest{1}, nil}}),
	"document":        plain(map[string]any{"a": []any{1.5, "x", nil, map[string]any{"b": []string{"c"}}}}),
	"cuts-in-a-list":  plain([]any{Reg{1}, Point{2, 3}, Wrap{1, Both{Reg{4}, nil}, "t"}, Reg{5}}),
	"events":          plain(Event{at(1), "in", User{"ann", []string{"admin", "dev"}}}, Event{at(2), "out", at(3)}),
	"long-name":       plain(Outer{1, Named{6}, 2}),
	"bytes-200":       plain(of(bytes.Repeat([]byte{171}, 200)), of(strings.Repeat("é", 150))),
	"held-bigint":     plain(of(big.NewInt(5))),
	"held-url":        plain(Outer{1, &url.URL{Host: "a.b"}, 2}),
	"pointer-bigint":  plain(big.NewInt(5), []*big.Int{big.NewInt(-6)}),
	"pointer-time":    plain(pointerTo(at(1)), at(2)),
	"pointer-url":     plain(&url.URL{Scheme: "http", Host: "a.b", Path: "/c"}),
	"pointer-named":   plain(Holds{&Enc{"e"}}, &Enc{"f"}),
	"held-named":      plain(Outer{1, Holds{&Enc{"e"}}, 2}, Outer{3, &Enc{"f"}, 4}, Enc{"g"}),
	"go-cache":        goCache,
	"session":         session,
	"types-in-values": plain([]any{[]Reg{{1}}, map[string]Point{"p": {1, 2}}, [2]Reg{{0}, {4}}}),
}

type Named struct{ A int }

func at(seconds int64) time.Time { return time.Unix(seconds, 5).UTC() }

func pointerTo[T any](value T) *T { return &value }

func plain(values ...any) func() (Some, []byte) {
	return func() (Some, []byte) {
		var out bytes.Buffer
		encoder := gob.NewEncoder(&out)
		for _, value := range values {
			must(encoder.Encode(value))
		}
		return values, out.Bytes()
	}
}

// goCache is what go-cache saves into a file.
func goCache() (Some, []byte) {
	items := map[string]cache.Item{
		"count": {Object: 42},
		"names": {Object: []string{"a", "b"}, Expiration: 4102444800000000000},
		"user":  {Object: User{"ann", nil}, Expiration: 4102444800000000000},
	}
	path := os.Args[2] + "/saved"
	//lint:ignore SA1019 it is what is tried here
	must(cache.NewFrom(cache.NoExpiration, 0, items).SaveFile(path))
	saved, err := os.ReadFile(path)
	must(err)
	must(os.Remove(path))
	return Some{items}, saved
}

// session is what gorilla/sessions puts into a cookie, in front of signing it.
func session() (Some, []byte) {
	gob.Register(User{})
	store := sessions.NewCookieStore([]byte("a key of the session"))
	kept, err := store.New(httptest.NewRequest(http.MethodGet, "/", nil), "s")
	must(err)
	kept.Values["user"] = User{"bob", []string{"dev"}}
	kept.Values[42] = 43
	kept.AddFlash("saved")
	serialized, err := securecookie.GobEncoder{}.Serialize(kept.Values)
	must(err)
	return Some{kept.Values}, serialized
}

// decoded tells whether Go's decoder makes these values of the stream, and nothing behind them.
func decoded(values Some, stream []byte) bool {
	decoder := gob.NewDecoder(bytes.NewReader(stream))
	for _, value := range values {
		sent := reflect.Indirect(reflect.ValueOf(value))
		made := reflect.New(sent.Type())
		if err := decoder.DecodeValue(made); err != nil {
			log.Print(err)
			return false
		}
		// They need but print alike: an empty list is decoded as none.
		if lineOf(made.Elem()) != lineOf(sent) {
			log.Printf("decoded %v, sent %v", made.Elem(), sent)
			return false
		}
	}
	err := decoder.DecodeValue(reflect.Value{})
	return err == io.EOF
}

func register() {
	for _, value := range []any{
		Reg{}, Pair{}, Both{}, Outer{}, Wrap{}, Point{}, Node{}, Forest{}, User{}, Grid{}, Holds{}, &Enc{}, Celsius(0),
		of(nil), time.Time{}, big.NewInt(0), &url.URL{}, []any{}, []int{}, []string{}, []Reg{}, [2]bool{}, [2]Reg{},
		map[string]any{}, map[string]int{}, map[string]Point{},
	} {
		gob.Register(value)
	}
	gob.RegisterName(long, Named{})
}

// undecoded are the streams that Go 1.19 doesn't decode into the types of what it encoded: it refuses a named pointer
// type.
var undecoded = map[string]bool{"pointer-named": true, "held-named": true}

// again is the status where a map wasn't sent in the order of its keys: another process may send it so.
const again = 3

func main() {
	if len(os.Args) == 1 {
		for name := range streams {
			fmt.Println(name)
		}
		return
	}
	register()
	if len(os.Args) == 2 && os.Args[1] == "answers" {
		for _, name := range mutated {
			printAnswers(name)
		}
		return
	}
	if len(os.Args) != 3 || streams[os.Args[1]] == nil {
		log.Fatal("usage: filled, for the names; filled NAME FOLDER; or filled answers")
	}
	name, folder := os.Args[1], os.Args[2]
	values, stream := streams[name]()
	if !undecoded[name] && !decoded(values, stream) {
		log.Fatalf("%s: Go decodes something else", name)
	}
	lines, sorted := linesOf(values, stream)
	if !sorted {
		os.Exit(again)
	}
	must(os.WriteFile(folder+"/"+name+".gob", stream, 0o644))
	must(os.WriteFile(folder+"/"+name+".lines", []byte(lines), 0o644))
}
