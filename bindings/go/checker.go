package gobcheck

// With -O2 the C compiler takes several times as long, and the code is no faster.

// #cgo CFLAGS: -O1
// #include "gob.h"
import "C"

import "unsafe"

// A checker goes through a stream that is fed in pieces, and keeps nothing of what is whole. It has memory of C's until
// it is closed.
type checker struct {
	check  *C.gob_checker
	counts C.gob_counts
	fault  C.gob_fault
}

func newChecker(options *Options) (*checker, error) {
	c, limits := new(checker), options.limits()
	if options != nil && options.Exact {
		c.check = C.gob_check_open_exact(&limits, &c.fault)
	} else {
		c.check = C.gob_check_open(&limits, &c.fault)
	}
	return c, faultOf(&c.fault)
}

// feed takes the next bytes. Behind it the summary is that of all items that are whole, also where there is an error.
func (c *checker) feed(piece []byte) error {
	if len(piece) == 0 {
		return nil
	}
	C.gob_check_feed(c.check, unsafe.Pointer(&piece[0]), C.size_t(len(piece)), &c.counts, &c.fault)
	return faultOf(&c.fault)
}

// finish says that no byte follows.
func (c *checker) finish() error {
	C.gob_check_finish(c.check, &c.counts, &c.fault)
	return faultOf(&c.fault)
}

// summary is what there is in the items that are whole.
func (c *checker) summary() Summary {
	return Summary{
		Items:  uint64(c.counts.items),
		Types:  uint64(c.counts.types),
		Values: uint64(c.counts.values),
		Bytes:  uint64(c.counts.bytes),
	}
}

func (c *checker) close() { C.gob_check_close(c.check) }
