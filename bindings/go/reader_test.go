package gobcheck

import (
	"bytes"
	"encoding/gob"
	"errors"
	"io"
	"runtime"
	"strings"
	"testing"
	"testing/iotest"
)

type record struct {
	ID    int
	Name  string
	Score float64
}

// written is a stream of so many records.
func written(t testing.TB, count int) []byte {
	var stream bytes.Buffer
	encoder := gob.NewEncoder(&stream)
	for n := 0; n < count; n++ {
		if err := encoder.Encode(record{n + 1, "a name of some length", 1.5}); err != nil {
			t.Fatal(err)
		}
	}
	return stream.Bytes()
}

// decoded is how many records a Decoder gives, and its error, nil at the end.
func decoded(r io.Reader) (int, error) {
	decoder := gob.NewDecoder(r)
	for count := 0; ; count++ {
		var one record
		if err := decoder.Decode(&one); err == io.EOF {
			return count, nil
		} else if err != nil {
			return count, err
		}
	}
}

func TestWhole(t *testing.T) {
	stream := written(t, 3000)
	for name, cut := range map[string]func(io.Reader) io.Reader{
		"one byte": iotest.OneByteReader, "half": iotest.HalfReader, "with the end": iotest.DataErrReader,
	} {
		if count, err := decoded(NewReader(cut(bytes.NewReader(stream)), nil)); count != 3000 || err != nil {
			t.Errorf("%s: %d records, %v", name, count, err)
		}
	}
	summary, err := Check(bytes.NewReader(stream), nil)
	if due := (Summary{3001, 1, 3000, uint64(len(stream))}); summary != due || err != nil {
		t.Errorf("%v, %v", summary, err)
	}
	if summary, err := Check(strings.NewReader(""), nil); summary != (Summary{}) || err != nil {
		t.Errorf("%v, %v", summary, err)
	}
}

// TestHole tries a file whose end was never written, as behind a crash: Decode gives a value too many, and no error.
func TestHole(t *testing.T) {
	stream := written(t, 1000)
	var begin, end uint64
	Values(bytes.NewReader(stream), nil)(func(value Value, _ error) bool {
		begin, end = value.Begin, value.End
		return value.Data.(*Struct).Field("ID") != int64(503)
	})
	for n := (begin + end) / 2; n < uint64(len(stream)); n++ {
		stream[n] = 0
	}
	if count, err := decoded(bytes.NewReader(stream)); count != 503 || err != nil {
		t.Errorf("Decode alone: %d records, %v", count, err)
	}
	count, err := decoded(NewReader(bytes.NewReader(stream), nil))
	refused := new(Refused)
	if count != 502 || !errors.As(err, &refused) || refused.Begin != begin {
		t.Errorf("behind a Reader: %d records, %v", count, err)
	}
}

func TestTorn(t *testing.T) {
	stream := written(t, 20)
	for cut := range stream {
		out, err := io.ReadAll(NewReader(bytes.NewReader(stream[:cut]), nil))
		if refused, is := err.(*Refused); is {
			if refused.Reason.Name() != "Ended" || refused.Begin != uint64(len(out)) || refused.Place != uint64(cut) {
				t.Errorf("cut at %d: %v", cut, err)
			}
		} else if err != nil || len(out) != cut {
			t.Errorf("cut at %d: %d bytes, %v", cut, len(out), err)
		}
	}
}

// TestReadByte takes one byte after another, as a Decoder needs them.
func TestReadByte(t *testing.T) {
	stream := written(t, 3000)
	reader := NewReader(bytes.NewReader(stream), nil)
	for n, due := range stream {
		if made, err := reader.ReadByte(); made != due || err != nil {
			t.Fatalf("byte %d: %d, %v", n, made, err)
		}
	}
	if _, err := reader.ReadByte(); err != io.EOF {
		t.Error(err)
	}
}

func TestErrors(t *testing.T) {
	stream, broken := written(t, 20), errors.New("broken")
	out, err := io.ReadAll(NewReader(io.MultiReader(bytes.NewReader(stream), iotest.ErrReader(broken)), nil))
	if !bytes.Equal(out, stream) || err != broken {
		t.Errorf("%d bytes, %v", len(out), err)
	}
	if _, err := Check(bytes.NewReader(stream), &Options{Depth: 70000}); err != ErrLimits {
		t.Error(err)
	}
	refused := new(Refused)
	if _, err := Check(bytes.NewReader(stream), &Options{Item: 20}); !errors.As(err, &refused) {
		t.Error(err)
	}
	due := "gob: refused 3 ItemTooLong at 0 seen 1: More bytes are announced"
	if !strings.HasPrefix(refused.Error(), due) {
		t.Error(refused)
	}
	reader := NewReader(bytes.NewReader(stream), nil)
	reader.Close()
	if n, err := reader.Read(make([]byte, 9)); n != 0 || err != io.ErrClosedPipe {
		t.Error(n, err)
	}
	stopped := 0
	Values(bytes.NewReader(stream), nil)(func(Value, error) bool { stopped++; return stopped < 3 })
	if stopped != 3 {
		t.Error(stopped)
	}
}

// TestLetGo makes many readers that nobody closes, each of which has memory of C's.
func TestLetGo(t *testing.T) {
	stream := written(t, 1)
	for n := 0; n < rounds(5000, 300); n++ {
		NewReader(bytes.NewReader(stream), nil).Read(make([]byte, 1))
		if n%100 == 0 {
			runtime.GC()
		}
	}
}

func BenchmarkCheck(b *testing.B) {
	stream := written(b, 50000)
	b.SetBytes(int64(len(stream)))
	b.ResetTimer()
	for n := 0; n < b.N; n++ {
		if summary, err := Check(bytes.NewReader(stream), nil); summary.Values != 50000 || err != nil {
			b.Fatal(summary, err)
		}
	}
}
