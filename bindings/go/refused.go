package gobcheck

// #include "gob.h"
import "C"

import (
	"errors"
	"fmt"
)

// ErrMemory is the error of a stream that asked for more memory than is had.
var ErrMemory = errors.New("gobcheck: no memory")

// ErrLimits is the error of Options that aren't limits: see their fields.
var ErrLimits = errors.New("gobcheck: no such limits")

// A Reason says why bytes are refused.
type Reason uint32

// Name is the name of the reason, such as FieldNumber.
func (r Reason) Name() string { return C.GoString(C.gob_reason_name(C.uint32_t(r))) }

// String says what is wrong, in a sentence.
func (r Reason) String() string { return C.GoString(C.gob_reason_text(C.uint32_t(r))) }

// Refused is the error of bytes that are no stream. Offsets are those of the stream, in bytes from 0.
type Refused struct {
	Reason Reason
	ID     uint64 // the type id that the reason speaks of, 0 where it speaks of none
	Place  uint64 // the first refused byte
	Seen   uint64 // how many bytes of the stream show it
	Begin  uint64 // where the refused item begins: so many bytes are whole items
}

// Error says what is wrong, with the name of the reason and the byte.
func (r *Refused) Error() string {
	name := r.Reason.Name()
	return fmt.Sprintf("gob: refused %d %s at %d seen %d: %v", uint32(r.Reason), name, r.Place, r.Seen, r.Reason)
}

// faultOf is the error that a call of the library told, nil where it told none.
func faultOf(fault *C.gob_fault) error {
	switch fault.status {
	case C.GOB_OK:
		return nil
	case C.GOB_REFUSED:
		return &Refused{
			Reason: Reason(fault.reason),
			ID:     uint64(fault.id),
			Place:  uint64(fault.place),
			Seen:   uint64(fault.seen),
			Begin:  uint64(fault.begin),
		}
	case C.GOB_NO_MEMORY:
		return ErrMemory
	case C.GOB_BAD_LIMITS:
		return ErrLimits
	}
	panic(fmt.Sprintf("gobcheck: the library was misused: status %d", uint32(fault.status)))
}
