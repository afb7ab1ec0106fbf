package gobcheck

// #include "gob.h"
import "C"

import (
	"errors"
	"math"
)

var errStopped = errors.New("gobcheck: stopped by its caller")

// An item has the nodes and the bytes of a value, or of a definition, in memory of C's.
type item struct {
	nodes []C.gob_node
	bytes []byte
	of    *session
}

// methods are those by which a type encodes itself, by their numbers in definitions.
var methods = [...]string{"", "GobEncode", "MarshalBinary", "MarshalText"}

// text is a copy of the bytes of a node.
func (i item) text(node *C.gob_node) []byte {
	return append([]byte{}, i.bytes[node.first:][:node.second]...)
}

// typeOf is the type that the item defines.
func (i item) typeOf(id uint32) *Type {
	top := &i.nodes[0]
	defined := &Type{ID: id, Kind: Kind(top.kind), Name: string(i.text(top))}
	named := i.nodes[1:]
	switch defined.Kind {
	case Map:
		defined.Key, defined.Elem = uint32(named[0].number), uint32(named[1].number)
	case Slice:
		defined.Elem = uint32(named[0].number)
	case Array:
		defined.Elem, defined.Len = uint32(named[0].number), uint64(named[0].first)
	case Encoded:
		defined.Method = methods[top.number]
	case Structure:
		for n := range named {
			field := TypeField{string(i.text(&named[n])), uint32(named[n].number)}
			defined.Fields = append(defined.Fields, field)
		}
	}
	return defined
}

// part is the value of the part at this node, which is of the type of this id, and the place of the node behind it.
func (i item) part(at int, id uint32) (any, int) {
	node := &i.nodes[at]
	switch node.kind {
	case C.GOB_LIST:
		return i.list(at, id)
	case C.GOB_MAP:
		return i.pairs(at, id)
	case C.GOB_STRUCT:
		return i.structOf(at, id)
	case C.GOB_OPAQUE:
		return &Opaque{i.of.typeOf(id), i.text(node)}, at + 1
	case C.GOB_HELD:
		return i.held(at), at + 1
	}
	return i.basic(node), at + 1
}

func (i item) basic(node *C.gob_node) any {
	switch node.kind {
	case C.GOB_BOOL:
		return node.first != 0
	case C.GOB_INT:
		return int64(node.first>>1) ^ -int64(node.first&1)
	case C.GOB_UINT:
		return uint64(node.first)
	case C.GOB_FLOAT:
		return math.Float64frombits(uint64(node.first))
	case C.GOB_COMPLEX:
		return complex(math.Float64frombits(uint64(node.first)), math.Float64frombits(uint64(node.second)))
	case C.GOB_BYTES:
		return i.text(node)
	case C.GOB_STRING:
		return string(i.text(node))
	}
	return nil
}

func (i item) list(at int, id uint32) (any, int) {
	elem := i.of.typeOf(id).Elem
	elements := make([]any, i.nodes[at].first)
	at++
	for n := range elements {
		elements[n], at = i.part(at, elem)
	}
	return elements, at
}

func (i item) pairs(at int, id uint32) (any, int) {
	of := i.of.typeOf(id)
	pairs := make([]Pair, i.nodes[at].first)
	at++
	for n := range pairs {
		pairs[n].Key, at = i.part(at, of.Key)
		pairs[n].Elem, at = i.part(at, of.Elem)
	}
	return pairs, at
}

func (i item) structOf(at int, id uint32) (any, int) {
	of := i.of.typeOf(id)
	fields := make([]Field, i.nodes[at].first)
	at++
	for n := range fields {
		number := int(i.nodes[at].number)
		named := of.Fields[number]
		fields[n].Name, fields[n].Number = named.Name, number
		fields[n].Value, at = i.part(at, named.Type)
	}
	return &Struct{of, fields}, at
}

// held is what the interface at this node holds: its name stands that many nodes further on, and then its value.
func (i item) held(at int) *Held {
	node := &i.nodes[at]
	name := at + int(node.first)
	value, _ := i.part(name+1, uint32(node.second))
	return &Held{string(i.text(&i.nodes[name])), i.of.typeOf(uint32(node.second)), value}
}
