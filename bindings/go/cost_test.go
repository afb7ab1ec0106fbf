//go:build linux || darwin

package gobcheck

import (
	"bytes"
	"encoding/gob"
	"io"
	"syscall"
	"testing"
	"time"
)

type order struct {
	ID     int
	Buyer  string
	Lines  []line
	Paid   bool
	Tagged map[string]int
}

type line struct {
	Name  string
	Count int
	Price float64
}

type shape struct{ Of any }

// streamOf is a stream of this value, so many times.
func streamOf[T any](b *testing.B, count int, value T) []byte {
	gob.Register(record{})
	var stream bytes.Buffer
	encoder := gob.NewEncoder(&stream)
	for n := 0; n < count; n++ {
		if err := encoder.Encode(value); err != nil {
			b.Fatal(err)
		}
	}
	return stream.Bytes()
}

// processorTime is how much of it a run takes.
func processorTime(run func()) time.Duration {
	var before, after syscall.Rusage
	syscall.Getrusage(syscall.RUSAGE_SELF, &before)
	run()
	syscall.Getrusage(syscall.RUSAGE_SELF, &after)
	return time.Duration(after.Utime.Nano() + after.Stime.Nano() - before.Utime.Nano() - before.Stime.Nano())
}

// costOf reports how many times as long as Decode alone it takes behind a Reader, by processor time.
func costOf[T any](b *testing.B, count int, value T) {
	stream := streamOf(b, count, value)
	decode := func(r io.Reader) {
		decoder := gob.NewDecoder(r)
		for n := 0; n < count; n++ {
			var one T
			if err := decoder.Decode(&one); err != nil {
				b.Fatal(err)
			}
		}
	}
	var alone, behind time.Duration
	for n := 0; n < b.N; n++ {
		alone += processorTime(func() { decode(bytes.NewReader(stream)) })
		behind += processorTime(func() { decode(NewReader(bytes.NewReader(stream), nil)) })
	}
	b.ReportMetric(float64(behind)/float64(alone), "times")
}

func BenchmarkCost(b *testing.B) {
	b.Run("records", func(b *testing.B) { costOf(b, 50000, record{12345, "a name of some length", 1.5}) })
	b.Run("orders", func(b *testing.B) {
		lines := []line{{"a name", 3, 1.5}, {"another name", 1, 20.25}}
		costOf(b, 20000, order{7, "who@where.example", lines, true, map[string]int{"a": 1, "b": 2}})
	})
	b.Run("ints", func(b *testing.B) { costOf(b, 20000, []int{1, 200, 3000, 4, 5, 6, 70, 8, 9, 100, 11, 12, 13}) })
	b.Run("bytes", func(b *testing.B) { costOf(b, 50000, make([]byte, 1000)) })
	b.Run("interfaces", func(b *testing.B) { costOf(b, 20000, shape{record{12345, "a name of some length", 1.5}}) })
}
