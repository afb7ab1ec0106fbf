package gobcheck_test

import (
	"bytes"
	"encoding/gob"
	"fmt"
	"io"

	"gobcheck"
)

type login struct {
	User  string
	Tries int
}

// stream is what a writer sent: two logins.
func stream() []byte {
	var sent bytes.Buffer
	encoder := gob.NewEncoder(&sent)
	encoder.Encode(login{"ann", 3})
	encoder.Encode(login{"bob", 1})
	return sent.Bytes()
}

func ExampleNewReader() {
	received := stream()
	received[len(received)-3] = 9 // one byte is damaged
	decoder := gob.NewDecoder(gobcheck.NewReader(bytes.NewReader(received), nil))
	for {
		var one login
		err := decoder.Decode(&one)
		if err != nil {
			fmt.Println(err)
			return
		}
		fmt.Println(one)
	}
	// Output:
	// {ann 3}
	// gob: refused 15 FieldNumber at 58 seen 59: A struct has no such field.
}

func ExampleCheck() {
	summary, err := gobcheck.Check(bytes.NewReader(stream()), nil)
	fmt.Println(summary.Values, "values,", summary.Types, "type:", err)
	// Output: 2 values, 1 type: <nil>
}

func ExampleValues() {
	// from Go 1.23 on: for value, err := range gobcheck.Values(r, nil) { ... }
	gobcheck.Values(bytes.NewReader(stream()), nil)(func(value gobcheck.Value, err error) bool {
		if err != nil {
			fmt.Println(err)
			return false
		}
		fmt.Println(value.Type.Name, value.Data.(*gobcheck.Struct).Field("User"))
		return true
	})
	// Output:
	// login ann
	// login bob
}

func ExampleRefused() {
	received := stream()
	_, err := io.Copy(io.Discard, gobcheck.NewReader(bytes.NewReader(received[:60]), nil))
	refused := err.(*gobcheck.Refused)
	fmt.Println(refused.Reason, refused.Begin, "bytes are whole items.")
	// Output: The file ends within an item. 50 bytes are whole items.
}
