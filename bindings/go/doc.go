// Package gobcheck stands between bytes of unknown origin and encoding/gob. Its reader was proved to take exactly the
// streams that Go's encoder writes, within limits, and to say of any other bytes at which byte they stop being one.
//
// A Reader hands on whole valid items alone, so that a Decoder never sees the first byte of a damaged one:
//
//	decoder := gob.NewDecoder(gobcheck.NewReader(connection, nil))
//
// Check goes through a whole stream and says how much is in it. Values gives what is in it, without the Go types.
//
// The package is C code, which cgo compiles: it asks for a C compiler, gcc or clang, and for a little-endian machine.
// The code was translated to C from what was proved, and the translation isn't proved.
package gobcheck
