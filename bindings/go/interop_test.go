package gobcheck

import (
	"bytes"
	"io"
	"math/rand"
	"os"
	"os/exec"
	"path/filepath"
	"strings"
	"testing"
	"testing/iotest"
)

// streams are those of the folder interop that GOB_INTEROP names: files that Go's encoder wrote.
func streams(t *testing.T) []string {
	var paths []string
	for _, folder := range []string{"streams", "filled/streams"} {
		found, err := filepath.Glob(filepath.Join(os.Getenv("GOB_INTEROP"), folder, "*.gob"))
		if err != nil {
			t.Fatal(err)
		}
		paths = append(paths, found...)
	}
	if len(paths) == 0 {
		t.Skip("GOB_INTEROP names no folder of streams")
	}
	return paths
}

func content(t *testing.T, path string) []byte {
	data, err := os.ReadFile(path)
	if err != nil {
		t.Fatal(err)
	}
	return data
}

// pieces gives the stream in pieces of at most this size.
type pieces struct {
	from io.Reader
	size int
}

func (p pieces) Read(b []byte) (int, error) {
	if len(b) > p.size {
		b = b[:p.size]
	}
	return p.from.Read(b)
}

// TestLines compares what Go is given with the lines beside each stream, whatever pieces it comes in.
func TestLines(t *testing.T) {
	for _, path := range streams(t) {
		data := content(t, path)
		due := string(content(t, strings.TrimSuffix(path, ".gob")+".lines"))
		if !strings.Contains(path, "filled") && isOfInterfaces(path) {
			continue
		}
		for _, size := range []int{1, 2, 3, 7, 64, 1 << 16} {
			lines, fault, err := show(pieces{bytes.NewReader(data), size}, nil)
			if lines != due || fault != "" || err != nil {
				t.Errorf("%s in pieces of %d: %s%s%v", path, size, lines, fault, err)
			}
		}
	}
}

// isOfInterfaces is whether the lines beside the stream end where only the documented format is read.
func isOfInterfaces(path string) bool {
	_, err := os.Stat(strings.TrimSuffix(path, ".gob") + ".fault")
	return err == nil
}

// TestExact compares with the lines and the fault of streams that are read by the documented format alone.
func TestExact(t *testing.T) {
	for _, path := range streams(t) {
		base := strings.TrimSuffix(path, ".gob")
		if strings.Contains(path, "filled") || !isOfInterfaces(path) {
			continue
		}
		lines, fault, err := show(iotest.HalfReader(bytes.NewReader(content(t, path))), &Options{Exact: true})
		if lines != string(content(t, base+".lines")) || fault != string(content(t, base+".fault")) || err != nil {
			t.Errorf("%s: %s%s%v", path, lines, fault, err)
		}
	}
}

// damaged is a stream with one to three bytes changed, and now and then cut off.
func damaged(dice *rand.Rand, stream []byte) []byte {
	data := append([]byte(nil), stream...)
	for n := 1 + dice.Intn(3); n > 0; n-- {
		data[dice.Intn(len(data))] = []byte{0, 1, 2, 0x7f, 0x80, 0xff, byte(dice.Intn(256))}[dice.Intn(7)]
	}
	if dice.Intn(5) == 0 {
		data = data[:1+dice.Intn(len(data))]
	}
	return data
}

// rounds is how many damaged streams are tried.
func rounds(many, few int) int {
	if testing.Short() {
		return few
	}
	return many
}

// TestAsProgram compares with what the program that GOB names prints of damaged streams.
func TestAsProgram(t *testing.T) {
	program := os.Getenv("GOB")
	if program == "" {
		t.Skip("GOB names no program")
	}
	dice, paths := rand.New(rand.NewSource(7)), streams(t)
	refused := 0
	for n := rounds(5000, 200); n > 0; n-- {
		data := damaged(dice, content(t, paths[dice.Intn(len(paths))]))
		command := exec.Command(program, "show", "--go")
		var out, fault bytes.Buffer
		command.Stdin, command.Stdout, command.Stderr = bytes.NewReader(data), &out, &fault
		command.Run()
		lines, said, err := show(pieces{bytes.NewReader(data), 1 + dice.Intn(100)}, nil)
		if lines != out.String() || said != fault.String() || err != nil {
			t.Fatalf("%x\n%s%s%v\n%s%s", data, lines, said, err, out.String(), fault.String())
		}
		if said != "" {
			refused++
		}
		if summary, said := checked(data, 1+dice.Intn(100)); said != fault.String() || int(summary.Values) != values(lines) {
			t.Fatalf("%x: %v\n%s%s", data, summary, said, fault.String())
		}
	}
	t.Log(refused, "refused, as the program says")
}

// checked is what Check says of a stream in pieces of this size, and the line of its fault.
func checked(data []byte, size int) (Summary, string) {
	summary, err := Check(pieces{bytes.NewReader(data), size}, nil)
	if refused, is := err.(*Refused); is {
		return summary, faultLine(refused)
	}
	return summary, ""
}

// values is how many of the lines are of values.
func values(lines string) int { return strings.Count("\n"+lines, "\n{\"type\"") }

// TestDamaged tries that what comes through a Reader is a whole stream and the front of the input, which ends where the
// refused item begins.
func TestDamaged(t *testing.T) {
	dice, paths := rand.New(rand.NewSource(8)), streams(t)
	for n := rounds(20000, 300); n > 0; n-- {
		data := damaged(dice, content(t, paths[dice.Intn(len(paths))]))
		out, err := io.ReadAll(NewReader(pieces{bytes.NewReader(data), 1 + dice.Intn(100)}, nil))
		summary, fault := Check(bytes.NewReader(data), nil)
		if refused, is := err.(*Refused); is {
			same, is := fault.(*Refused)
			if !is || *same != *refused || refused.Begin != uint64(len(out)) || refused.Begin > refused.Place {
				t.Fatalf("%x: %v, %v, %d bytes", data, err, fault, len(out))
			}
		} else if err != nil || fault != nil || len(out) != len(data) {
			t.Fatalf("%x: %v, %v", data, err, fault)
		}
		whole, err := Check(bytes.NewReader(out), nil)
		if !bytes.HasPrefix(data, out) || err != nil || whole != summary || whole.Bytes != uint64(len(out)) {
			t.Fatalf("%x: %v, %v, %v", data, err, whole, summary)
		}
	}
}
