package gobcheck

// A Value is a value of a stream: what a writer gave to one call of Encode.
type Value struct {
	Type  *Type
	Data  any    // see Values
	Begin uint64 // where its bytes begin in the stream, in bytes from 0
	End   uint64 // where the bytes behind it begin
}

// A Type is a type of a stream, as its writer defined it, or one of the basic types.
type Type struct {
	ID     uint32 // the number by which values and other types name it
	Kind   Kind
	Name   string      // empty where Go's type has none
	Fields []TypeField // of a struct
	Key    uint32      // of a map, the id of the keys' type
	Elem   uint32      // of a list, an array or a map, the id of the elements' type
	Len    uint64      // of an array
	Method string      // of an encoded type: GobEncode, MarshalBinary or MarshalText
}

// A TypeField is a field of a struct.
type TypeField struct {
	Name string
	Type uint32 // the id of its type
}

// A Kind is what a type is made of.
type Kind uint32

// The kinds of types.
const (
	Bool      Kind = 1
	Int       Kind = 2
	Uint      Kind = 3
	Float     Kind = 4
	Bytes     Kind = 5
	String    Kind = 6
	Complex   Kind = 7
	Interface Kind = 8
	Slice     Kind = 9
	Map       Kind = 10
	Structure Kind = 11
	Encoded   Kind = 12 // by its own GobEncode, MarshalBinary or MarshalText
	Array     Kind = 13
)

// A Struct has the fields that are present, in order: Go's encoder leaves out those that are zero.
type Struct struct {
	Type   *Type
	Fields []Field
}

// A Field is a field of a struct, with its value.
type Field struct {
	Name   string
	Number int // in Type.Fields
	Value  any
}

// Field is the value of the field of this name, nil where it is absent.
func (s *Struct) Field(name string) any {
	for _, field := range s.Fields {
		if field.Name == name {
			return field.Value
		}
	}
	return nil
}

// A Pair is a key of a map with its element. A map is a slice of these, in the order of the stream.
type Pair struct {
	Key, Elem any
}

// Opaque is what a type made of its value by GobEncode, MarshalBinary or MarshalText. Only that type explains it: of a
// time.Time, say, UnmarshalBinary takes the bytes.
type Opaque struct {
	Type  *Type
	Bytes []byte
}

// Held is what an interface holds.
type Held struct {
	Name  string // the name under which the writer registered the type
	Type  *Type
	Value any
}
