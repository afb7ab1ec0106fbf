package gobcheck

// #include "gob.h"
import "C"

// Options say what a stream may have. A field that is 0 stands for the standard limit, and nil for all of these.
type Options struct {
	Item   uint64 // bytes of an item, 64 MiB; how much memory a stream may take follows from it
	Depth  uint64 // of a value, at most 1000, the standard limit; with Exact at most 65536
	Types  uint64 // definitions of types, 10,000
	Stream uint64 // bytes of the stream, at most 2^63 - 1; 64 GiB
	Exact  bool   // only the format that Go documents, without values in interfaces
}

func orStandard(limit, standard uint64) C.uint64_t {
	if limit == 0 {
		limit = standard
	}
	return C.uint64_t(limit)
}

// limits are these options as the library has them.
func (o *Options) limits() C.gob_limits {
	if o == nil {
		o = new(Options)
	}
	return C.gob_limits{
		item:   orStandard(o.Item, 64<<20),
		depth:  orStandard(o.Depth, 1000),
		types:  orStandard(o.Types, 10000),
		stream: orStandard(o.Stream, 64<<30),
	}
}
