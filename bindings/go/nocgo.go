//go:build !cgo

package gobcheck

// The package is C code. The compiler stops here where cgo is off or no C compiler is found.
var _ = gobcheck_asks_for_cgo_set_CGO_ENABLED_to_1_and_install_a_C_compiler
