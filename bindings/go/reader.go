//go:build cgo

package gobcheck

import (
	"io"
	"runtime"
)

// A Reader hands on the bytes of whole valid items of a stream, and no other byte: what has come through it is always
// a whole stream, and the front of its input. It ends with io.EOF where all of the input is a stream; with *Refused
// behind the last item in front of the first byte that shows that it is none, also where it ends within an item; and
// else with the error of its input, ErrMemory or ErrLimits.
//
// It holds an item, of at most Options.Item bytes, until that is whole. A Reader is used by one goroutine at a time.
type Reader struct {
	from    io.Reader
	checker *checker
	held    []byte // whole items, and behind them the item under way
	given   int    // how many of these bytes were given
	whole   int    // how many of them are whole items
	end     uint64 // the offset behind the held bytes
	err     error  // what ends the reader, behind the whole items
}

// NewReader returns a reader of the stream that r gives.
func NewReader(r io.Reader, options *Options) *Reader {
	checker, err := newChecker(options)
	reader := &Reader{from: r, checker: checker, err: err}
	if err == nil {
		runtime.SetFinalizer(reader, (*Reader).letGo)
	}
	return reader
}

// Read gives the next bytes of whole items.
func (r *Reader) Read(p []byte) (int, error) {
	if len(p) == 0 {
		return 0, nil
	}
	if err := r.ready(); err != nil {
		return 0, err
	}
	n := copy(p, r.held[r.given:r.whole])
	r.given += n
	return n, nil
}

// ReadByte gives the next byte of the whole items. A Decoder that finds this method takes no byte further than it
// needs, and has no buffer of its own.
func (r *Reader) ReadByte() (byte, error) {
	if err := r.ready(); err != nil {
		return 0, err
	}
	r.given++
	return r.held[r.given-1], nil
}

// Close lets the memory of a reader go that isn't read to its end. It doesn't close the input.
func (r *Reader) Close() error {
	r.held, r.given, r.whole, r.err = nil, 0, 0, io.ErrClosedPipe
	r.letGo()
	return nil
}

// ready reads until a byte can be given. The error is that of the end, where no whole item is left.
func (r *Reader) ready() error {
	for r.given == r.whole {
		if r.err != nil {
			return r.err
		}
		if r.err = r.more(); r.err != nil {
			r.letGo()
		}
	}
	return nil
}

// more reads a piece, where all whole items were given, and takes note of how much is whole with it.
func (r *Reader) more() error {
	r.makeRoom()
	behind := len(r.held)
	n, err := r.from.Read(r.held[behind : behind+pieceSize])
	r.held = r.held[:behind+n]
	r.end += uint64(n)
	fault := r.checker.feed(r.held[behind:])
	r.whole = len(r.held) - int(r.end-r.checker.summary().Bytes)
	if fault == nil && err == io.EOF {
		fault = r.checker.finish()
	}
	if fault != nil {
		return fault
	}
	return err
}

// makeRoom puts the item under way in front, and has room for a piece behind it.
func (r *Reader) makeRoom() {
	if r.given > 0 {
		r.held = r.held[:copy(r.held, r.held[r.given:])]
		r.given, r.whole = 0, 0
	}
	if need := len(r.held) + pieceSize; cap(r.held) < need {
		r.held = append(make([]byte, 0, need+need/2), r.held...)
	}
}

func (r *Reader) letGo() {
	if r.checker != nil {
		r.checker.close()
		r.checker = nil
	}
}
