package main

import (
	"bytes"
	"encoding"
	"encoding/gob"
	"encoding/hex"
	"fmt"
	"log"
	"math"
	"reflect"
	"sort"
	"strings"
	"unicode/utf8"
	"unsafe"
)

// What Go keeps of a type: its number, and how it is described. The two functions are Go's own, and so are the fields.
type typeInfo struct {
	id   int32
	_    [2]int32 // a mutex
	_    any      // an atomic value
	wire *wireType
}

type wireType struct {
	ArrayT                                        *arrayType
	SliceT                                        *sliceType
	StructT                                       *structType
	MapT                                          *mapType
	GobEncoderT, BinaryMarshalerT, TextMarshalerT *gobEncoderType
}

type arrayType struct {
	gob.CommonType
	Elem int32
	Len  int
}

type sliceType struct {
	gob.CommonType
	Elem int32
}

type fieldType struct {
	Name string
	Id   int32
}

type structType struct {
	gob.CommonType
	Field []*fieldType
}

type mapType struct {
	gob.CommonType
	Key, Elem int32
}

type gobEncoderType struct{ gob.CommonType }

//go:linkname validUserType encoding/gob.validUserType
func validUserType(reflect.Type) (unsafe.Pointer, error)

//go:linkname getTypeInfo encoding/gob.getTypeInfo
func getTypeInfo(unsafe.Pointer) (*typeInfo, error)

func infoOf(t reflect.Type) *typeInfo {
	user, err := validUserType(t)
	must(err)
	info, err := getTypeInfo(user)
	must(err)
	return info
}

// writer makes the lines of one stream: those of definitions come before the line of the value that needs them first.
type writer struct {
	stream   []byte
	sent     map[reflect.Type]int32
	lines    strings.Builder
	unsorted bool
}

// linesOf returns the lines of these values, encoded one after another as the stream, and whether maps stand there in
// the order of their keys' lines.
func linesOf(values Some, stream []byte) (string, bool) {
	w := writer{stream: stream, sent: map[reflect.Type]int32{}}
	for _, value := range values {
		id := w.define(reflect.TypeOf(value))
		j := w.value(reflect.ValueOf(value))
		fmt.Fprintf(&w.lines, "{\"type\":%d,\"value\":%s}\n", id, j)
	}
	return w.lines.String(), !w.unsorted
}

// lineOf returns a value as in a line.
func lineOf(value reflect.Value) string {
	w := writer{sent: map[reflect.Type]int32{}}
	addressable := reflect.New(value.Type()).Elem()
	addressable.Set(value)
	return w.value(addressable)
}

var marshalers = []reflect.Type{
	reflect.TypeOf((*gob.GobEncoder)(nil)).Elem(),
	reflect.TypeOf((*encoding.BinaryMarshaler)(nil)).Elem(),
}

// encodesItself tells whether the type, or one that it points to, or a pointer to it encodes itself.
func encodesItself(t reflect.Type) bool {
	for _, marshaler := range marshalers {
		for at := t; ; at = at.Elem() {
			if at.Implements(marshaler) {
				return true
			}
			if at.Kind() != reflect.Pointer {
				break
			}
		}
		if t.Kind() != reflect.Pointer && reflect.PointerTo(t).Implements(marshaler) {
			return true
		}
	}
	return false
}

func baseOf(t reflect.Type) reflect.Type {
	for t.Kind() == reflect.Pointer {
		t = t.Elem()
	}
	return t
}

// define writes the lines of the definitions that this type needs and that weren't sent, outer ones first, and returns
// its number.
func (w *writer) define(t reflect.Type) int32 {
	base := baseOf(t)
	if id, isSent := w.sent[base]; isSent {
		return id
	}
	info := infoOf(t)
	composite := base.Kind() == reflect.Struct || base.Kind() == reflect.Map || base.Kind() == reflect.Array ||
		base.Kind() == reflect.Slice && base.Elem().Kind() != reflect.Uint8
	if !composite && !encodesItself(t) {
		return info.id
	}
	w.sent[base] = info.id
	w.lines.WriteString(definition(info))
	// Go looks into the parts of a type that encodes itself too.
	switch base.Kind() {
	case reflect.Struct:
		for at := 0; at < base.NumField(); at++ {
			if base.Field(at).IsExported() {
				w.define(base.Field(at).Type)
			}
		}
	case reflect.Map:
		w.define(base.Key())
		w.define(base.Elem())
	case reflect.Array, reflect.Slice:
		w.define(base.Elem())
	}
	return info.id
}

func definition(info *typeInfo) string {
	wire := info.wire
	switch {
	case wire.ArrayT != nil:
		t := wire.ArrayT
		return fmt.Sprintf("{\"define\":%d,\"elem\":%d,\"kind\":\"array\",\"len\":%d,\"name\":%s}\n",
			info.id, t.Elem, t.Len, text(t.Name))
	case wire.SliceT != nil:
		t := wire.SliceT
		return fmt.Sprintf("{\"define\":%d,\"elem\":%d,\"kind\":\"slice\",\"name\":%s}\n", info.id, t.Elem, text(t.Name))
	case wire.StructT != nil:
		var fields []string
		for _, field := range wire.StructT.Field {
			fields = append(fields, fmt.Sprintf("[%s,%d]", text(field.Name), field.Id))
		}
		return fmt.Sprintf("{\"define\":%d,\"fields\":[%s],\"kind\":\"struct\",\"name\":%s}\n",
			info.id, strings.Join(fields, ","), text(wire.StructT.Name))
	case wire.MapT != nil:
		t := wire.MapT
		return fmt.Sprintf("{\"define\":%d,\"elem\":%d,\"key\":%d,\"kind\":\"map\",\"name\":%s}\n",
			info.id, t.Elem, t.Key, text(t.Name))
	case wire.GobEncoderT != nil:
		return fmt.Sprintf("{\"define\":%d,\"kind\":\"gob\",\"name\":%s}\n", info.id, text(wire.GobEncoderT.Name))
	case wire.BinaryMarshalerT != nil:
		return fmt.Sprintf("{\"define\":%d,\"kind\":\"binary\",\"name\":%s}\n", info.id, text(wire.BinaryMarshalerT.Name))
	}
	panic("no description")
}

// value returns a value as it stands in a line.
func (w *writer) value(v reflect.Value) string {
	if encodesItself(v.Type()) {
		return `{"opaque":"` + hex.EncodeToString(encodedByItself(v)) + `"}`
	}
	switch v.Kind() {
	case reflect.Pointer:
		return w.value(v.Elem())
	case reflect.Bool:
		return fmt.Sprint(v.Bool())
	case reflect.Int, reflect.Int8, reflect.Int16, reflect.Int32, reflect.Int64:
		return fmt.Sprint(v.Int())
	case reflect.Uint, reflect.Uint8, reflect.Uint16, reflect.Uint32, reflect.Uint64:
		return fmt.Sprint(v.Uint())
	case reflect.Float32, reflect.Float64:
		return pattern(v.Float())
	case reflect.Complex64, reflect.Complex128:
		return "[" + pattern(real(v.Complex())) + "," + pattern(imag(v.Complex())) + "]"
	case reflect.String:
		return text(v.String())
	case reflect.Interface:
		return w.held(v)
	case reflect.Struct:
		return w.fields(v)
	case reflect.Map:
		return w.pairs(v)
	case reflect.Slice, reflect.Array:
		if v.Kind() == reflect.Slice && v.Type().Elem().Kind() == reflect.Uint8 {
			return `"` + hex.EncodeToString(v.Bytes()) + `"`
		}
		var elements []string
		for at := 0; at < v.Len(); at++ {
			elements = append(elements, w.value(v.Index(at)))
		}
		return "[" + strings.Join(elements, ",") + "]"
	}
	panic(v.Kind())
}

// held returns an interface value: its name is that under which its type, or what this points to, is registered.
func (w *writer) held(v reflect.Value) string {
	if v.IsNil() {
		return "null"
	}
	t := v.Elem().Type()
	id := w.define(t)
	return fmt.Sprintf(`{"interface":{"name":%s,"type":%d,"value":%s}}`, text(registeredName(t)), id, w.value(v.Elem()))
}

// registered are the names that Register gives to types which aren't named as they are.
var registered = map[reflect.Type]string{
	reflect.TypeOf(Named{}): long,
	reflect.TypeOf(Enc{}):   "*main.Enc",
}

// registeredName follows Register: a named type has its package in front, and a pointer to such a type a star.
func registeredName(t reflect.Type) string {
	base := baseOf(t)
	if name, isThere := registered[base]; isThere {
		return name
	}
	if base.String() == "big.Int" || base.String() == "url.URL" || base.Kind() == reflect.Interface {
		return "*" + base.String()
	}
	return base.String()
}

// fields returns the fields that are sent: no zeros but arrays and structs, no empty lists, and maps where there is
// one.
func (w *writer) fields(v reflect.Value) string {
	var fields []string
	number := -1
	for at := 0; at < v.NumField(); at++ {
		if !v.Type().Field(at).IsExported() {
			continue
		}
		number++
		field := v.Field(at)
		for field.Kind() == reflect.Pointer && !field.IsNil() && !encodesItself(field.Type()) {
			field = field.Elem()
		}
		if isSent(field) {
			fields = append(fields, fmt.Sprintf("[%d,%s,%s]", number, text(v.Type().Field(at).Name), w.value(field)))
		}
	}
	return "[" + strings.Join(fields, ",") + "]"
}

func isSent(field reflect.Value) bool {
	switch field.Kind() {
	case reflect.Slice, reflect.String:
		return field.Len() > 0
	case reflect.Map:
		return !field.IsNil()
	case reflect.Array, reflect.Struct:
		return !encodesItself(field.Type()) || !field.IsZero()
	}
	return !field.IsZero()
}

// pairs returns the pairs in the order of their keys' lines. Go sends them in any order.
func (w *writer) pairs(v reflect.Value) string {
	keys := v.MapKeys()
	sort.Slice(keys, func(a, b int) bool { return w.value(keys[a]) < w.value(keys[b]) })
	var pairs []string
	place := -1
	for _, key := range keys {
		pairs = append(pairs, "["+w.value(key)+","+w.value(v.MapIndex(key))+"]")
		if w.stream != nil && len(keys) > 1 {
			w.unsorted = w.unsorted || w.placeOf(key) < place
			place = w.placeOf(key)
		}
	}
	return "[" + strings.Join(pairs, ",") + "]"
}

// placeOf returns where a key stands, a text or an int in an interface. There must be one such place.
func (w *writer) placeOf(key reflect.Value) int {
	spelled := []byte(fmt.Sprint(key))
	if key.Kind() == reflect.Interface && key.Elem().Kind() == reflect.Int {
		spelled = []byte{4, 2, 0, byte(2 * key.Elem().Int())}
	}
	if count := bytes.Count(w.stream, spelled); count != 1 {
		log.Fatalf("the key %v stands in %d places", key, count)
	}
	return bytes.Index(w.stream, spelled)
}

// encodedByItself returns what a value makes of itself. A pointer to it has its methods too.
func encodedByItself(v reflect.Value) []byte {
	for v.Kind() == reflect.Pointer {
		v = v.Elem()
	}
	pointer := reflect.New(v.Type())
	pointer.Elem().Set(v)
	var made []byte
	var err error
	switch its := pointer.Interface().(type) {
	case gob.GobEncoder:
		made, err = its.GobEncode()
	case encoding.BinaryMarshaler:
		made, err = its.MarshalBinary()
	}
	must(err)
	return made
}

func pattern(f float64) string { return fmt.Sprintf("\"%016x\"", math.Float64bits(f)) }

func text(s string) string {
	if !utf8.ValidString(s) {
		return `{"hex":"` + hex.EncodeToString([]byte(s)) + `"}`
	}
	var out strings.Builder
	for at := 0; at < len(s); at++ {
		switch b := s[at]; {
		case b == '"' || b == '\\':
			out.WriteString("\\" + string(rune(b)))
		case strings.IndexByte("\b\t\n\f\r", b) >= 0:
			out.WriteString("\\" + string("btn_fr"[b-8]))
		case b < 32:
			fmt.Fprintf(&out, "\\u%04x", b)
		default:
			out.WriteByte(b)
		}
	}
	return `"` + out.String() + `"`
}
