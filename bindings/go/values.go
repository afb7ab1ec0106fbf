package gobcheck

// #include "gob.h"
import "C"

import (
	"io"
	"unsafe"
)

// Values gives each value of a stream as it is whole, and ends with the error of what follows, if any: *Refused where
// the bytes are no stream, and else that of the reader, ErrMemory or ErrLimits. It stops where yield answers false.
//
//	for value, err := range gobcheck.Values(file, nil) { ... } // from Go 1.23 on
//	gobcheck.Values(file, nil)(func(value gobcheck.Value, err error) bool { ... })
//
// Data is a bool, int64, uint64, float64, complex128, []byte or string, nil for a nil interface, []any for a slice or
// an array, []Pair for a map, *Struct, *Opaque, or *Held for an interface that holds a value. All of it is the
// caller's.
func Values(r io.Reader, options *Options) func(yield func(Value, error) bool) {
	return func(yield func(Value, error) bool) {
		s, err := newSession(options)
		if err == nil {
			defer s.close()
			err = s.run(r, yield)
		}
		if err != nil && err != errStopped {
			yield(Value{}, err)
		}
	}
}

// A session reads a stream that is fed in pieces. It has memory of C's until it is closed.
type session struct {
	reader  *C.gob_reader
	types   map[uint32]*Type
	defined func(*Type) // told of each definition
}

func newSession(options *Options) (*session, error) {
	var fault C.gob_fault
	limits := options.limits()
	s := &session{types: make(map[uint32]*Type), defined: func(*Type) {}}
	if options != nil && options.Exact {
		s.reader = C.gob_open_exact(&limits, &fault)
	} else {
		s.reader = C.gob_open(&limits, &fault)
	}
	return s, faultOf(&fault)
}

func (s *session) close() { C.gob_close(s.reader) }

// run reads to the end of a stream, and yields its values. The error is nil where all of the bytes are a stream.
func (s *session) run(r io.Reader, yield func(Value, error) bool) error {
	piece := make([]byte, pieceSize)
	for {
		n, err := r.Read(piece)
		fault := s.feed(piece[:n])
		taken := s.take(func(batch *C.gob_batch) error { return s.yieldAll(batch, yield) })
		if taken != nil {
			return taken
		}
		if fault != nil {
			return fault
		}
		if err == io.EOF {
			return s.finish()
		}
		if err != nil {
			return err
		}
	}
}

func (s *session) feed(piece []byte) error {
	if len(piece) == 0 {
		return nil
	}
	var fault C.gob_fault
	C.gob_feed(s.reader, unsafe.Pointer(&piece[0]), C.size_t(len(piece)), &fault)
	return faultOf(&fault)
}

func (s *session) finish() error {
	var fault C.gob_fault
	C.gob_finish(s.reader, &fault)
	return faultOf(&fault)
}

// take hands out all items that are whole, in batches, up to the first error.
func (s *session) take(use func(batch *C.gob_batch) error) error {
	for {
		var batch C.gob_batch
		switch C.gob_take(s.reader, &batch) {
		case 0:
			return nil
		case -1:
			return ErrMemory
		}
		if err := use(&batch); err != nil {
			return err
		}
	}
}

// yieldAll yields each value of a batch, and keeps each type that it defines.
func (s *session) yieldAll(batch *C.gob_batch, yield func(Value, error) bool) error {
	heads := unsafe.Slice(batch.heads, batch.items)
	nodes := unsafe.Slice(batch.nodes, batch.node_count)
	bytes := unsafe.Slice((*byte)(batch.bytes), batch.byte_count)
	for i := range heads {
		head := &heads[i]
		item := item{nodes[head.node:][:head.nodes], bytes[head.byte:][:head.bytes], s}
		if head.kind == C.GOB_DEFINE {
			defined := item.typeOf(uint32(head.id))
			s.types[defined.ID] = defined
			s.defined(defined)
			continue
		}
		data, _ := item.part(0, uint32(head.id))
		value := Value{s.typeOf(uint32(head.id)), data, uint64(head.begin), uint64(head.end)}
		if !yield(value, nil) {
			return errStopped
		}
	}
	return nil
}

// typeOf is the type of this id, which a value has.
func (s *session) typeOf(id uint32) *Type {
	found := s.types[id]
	if found == nil {
		found = s.asked(id)
		s.types[id] = found
	}
	return found
}

// asked is a type that no item has defined: a basic one, or one of those of which definitions are made.
func (s *session) asked(id uint32) *Type {
	if Kind(id) <= Interface {
		return &Type{ID: id, Kind: Kind(id), Name: basicNames[id]}
	}
	of := C.gob_type(s.reader, C.uint32_t(id))
	if of == nil {
		return &Type{ID: id}
	}
	return item{unsafe.Slice(of.nodes, of.count), unsafe.Slice((*byte)(of.bytes), of.size), s}.typeOf(id)
}

var basicNames = [...]string{"", "bool", "int", "uint", "float", "[]byte", "string", "complex", "interface"}
