// Says of lines of plain JSON what Go's encoding/json and encoding/gob make of them.
//
//	made <lines >answers     of each line its type, the JSON, and the stream in hexadecimal, or why there is none
//	made same <answers       of each line, with the stream of another writer, whether Go decodes it as its own
package main

import (
	"bufio"
	"bytes"
	"encoding/gob"
	"encoding/hex"
	"encoding/json"
	"fmt"
	"io"
	"os"
	"reflect"
	"strings"
)

var types = map[string]reflect.Type{
	"Login": reflect.TypeOf(Login{}), "Basics": reflect.TypeOf(Basics{}), "Point": reflect.TypeOf(Point{}),
	"Nested": reflect.TypeOf(Nested{}), "Tree": reflect.TypeOf(Tree{}), "Times": reflect.TypeOf(Times{}),
	"Numbers": reflect.TypeOf(Numbers{}), "Addresses": reflect.TypeOf(Addresses{}), "Maps": reflect.TypeOf(Maps{}),
	"Weather": reflect.TypeOf(Weather{}), "Pointers": reflect.TypeOf(Pointers{}), "Arrays": reflect.TypeOf(Arrays{}),
	"Slices": reflect.TypeOf(Slices{}), "Clock": reflect.TypeOf(Clock{}), "Held": reflect.TypeOf(Held{}),
	"Chain": reflect.TypeOf(Chain{}), "Ints": reflect.TypeOf(Ints{}), "Words": reflect.TypeOf(Words{}),
	"Flag": reflect.TypeOf(Flag(false)), "Title": reflect.TypeOf(Title("")), "Pair": reflect.TypeOf(Pair{}),
	"Moment": reflect.TypeOf(Moment{}), "Moments": reflect.TypeOf(Moments{}), "Count": reflect.TypeOf(Count(0)),
}

// said gives the value that the JSON says, as a pointer, where it is one JSON value and names only fields.
func said(name, line string) (reflect.Value, error) {
	value := reflect.New(types[name])
	decoder := json.NewDecoder(strings.NewReader(line))
	decoder.DisallowUnknownFields()
	if err := decoder.Decode(value.Interface()); err != nil {
		return value, err
	}
	if _, err := decoder.Token(); err != io.EOF {
		return value, fmt.Errorf("there is more behind the value")
	}
	return value, nil
}

func stream(value reflect.Value) ([]byte, error) {
	var out bytes.Buffer
	err := gob.NewEncoder(&out).EncodeValue(value.Elem())
	return out.Bytes(), err
}

func decoded(name string, stream []byte) (reflect.Value, error) {
	value := reflect.New(types[name])
	return value, gob.NewDecoder(bytes.NewReader(stream)).DecodeValue(value)
}

func answer(name, line string) string {
	value, err := said(name, line)
	if err != nil {
		return "refused: " + err.Error()
	}
	bytes, err := stream(value)
	if err != nil {
		return "refused: " + err.Error()
	}
	return hex.EncodeToString(bytes)
}

// isSame tells whether Go decodes the stream as it decodes its own of the same line.
func isSame(name, line, other string) error {
	value, err := said(name, line)
	if err != nil {
		return err
	}
	own, err := stream(value)
	if err != nil {
		return err
	}
	due, err := decoded(name, own)
	if err != nil {
		return err
	}
	bytes, err := hex.DecodeString(other)
	if err != nil {
		return err
	}
	found, err := decoded(name, bytes)
	if err != nil {
		return err
	}
	if !reflect.DeepEqual(due.Interface(), found.Interface()) {
		return fmt.Errorf("%+v in place of %+v", found.Elem(), due.Elem())
	}
	return nil
}

func main() {
	lines := bufio.NewScanner(os.Stdin)
	for lines.Scan() {
		row := strings.Split(lines.Text(), "\t")
		if len(os.Args) == 1 {
			fmt.Printf("%s\t%s\t%s\n", row[0], row[1], answer(row[0], row[1]))
		} else if err := isSame(row[0], row[1], row[2]); err != nil {
			fmt.Printf("%s\t%s\t%v\n", row[0], row[1], err)
		} else {
			fmt.Printf("%s\t%s\tsame\n", row[0], row[1])
		}
	}
}
