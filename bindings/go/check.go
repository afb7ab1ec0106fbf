//go:build cgo

package gobcheck

import "io"

// pieceSize is how many bytes are read at once.
const pieceSize = 64 << 10

// A Summary says what there is in the items of a stream.
type Summary struct {
	Items  uint64 // definitions and values
	Types  uint64 // types that are defined, also in what interfaces hold
	Values uint64 // values
	Bytes  uint64 // the bytes of these items
}

// Check reads a stream to its end, and keeps nothing of it. The error is nil exactly where all of the bytes are a
// stream, *Refused where they are none, and else that of the reader, ErrMemory or ErrLimits. The summary is that of the
// whole items, also of those in front of an error.
func Check(r io.Reader, options *Options) (Summary, error) {
	c, err := newChecker(options)
	if err != nil {
		return Summary{}, err
	}
	defer c.close()
	piece := make([]byte, pieceSize)
	for err == nil {
		var n int
		n, err = r.Read(piece)
		if fault := c.feed(piece[:n]); fault != nil {
			err = fault
		}
	}
	if err == io.EOF {
		err = c.finish()
	}
	return c.summary(), err
}
