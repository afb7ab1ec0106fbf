package gobcheck

import (
	"fmt"
	"io"
	"math"
	"strings"
	"unicode/utf8"
)

// show prints the items of a stream as gob show --go does, and then the line of its fault.
func show(r io.Reader, options *Options) (lines, fault string, err error) {
	var out strings.Builder
	s, err := newSession(options)
	if err != nil {
		return "", "", err
	}
	defer s.close()
	s.defined = func(t *Type) { showType(&out, t) }
	err = s.run(r, func(value Value, _ error) bool {
		fmt.Fprintf(&out, `{"type":%d,"value":`, value.Type.ID)
		showData(&out, value.Data)
		out.WriteString("}\n")
		return true
	})
	if refused, is := err.(*Refused); is {
		return out.String(), faultLine(refused), nil
	}
	return out.String(), "", err
}

func faultLine(r *Refused) string {
	id := ""
	if speaksOfID[r.Reason.Name()] {
		id = fmt.Sprintf("(%d)", r.ID)
	}
	return fmt.Sprintf("gob: refused %d %s%s at %d seen %d\n", uint32(r.Reason), r.Reason.Name(), id, r.Place, r.Seen)
}

var speaksOfID = map[string]bool{"ReservedType": true, "DefinedTwice": true, "UndefinedType": true, "Bottomless": true}

func showType(out *strings.Builder, t *Type) {
	fmt.Fprintf(out, `{"define":%d`, t.ID)
	switch t.Kind {
	case Array:
		fmt.Fprintf(out, `,"elem":%d,"kind":"array","len":%d`, t.Elem, t.Len)
	case Slice:
		fmt.Fprintf(out, `,"elem":%d,"kind":"slice"`, t.Elem)
	case Map:
		fmt.Fprintf(out, `,"elem":%d,"key":%d,"kind":"map"`, t.Elem, t.Key)
	case Structure:
		out.WriteString(`,"fields":[`)
		for n, field := range t.Fields {
			comma(out, n)
			fmt.Fprintf(out, `[%s,%d]`, text(field.Name), field.Type)
		}
		out.WriteString(`],"kind":"struct"`)
	case Encoded:
		kinds := map[string]string{"GobEncode": "gob", "MarshalBinary": "binary", "MarshalText": "text"}
		fmt.Fprintf(out, `,"kind":"%s"`, kinds[t.Method])
	}
	fmt.Fprintf(out, `,"name":%s}`+"\n", text(t.Name))
}

func showData(out *strings.Builder, data any) {
	switch d := data.(type) {
	case nil:
		out.WriteString("null")
	case float64:
		fmt.Fprintf(out, `"%016x"`, math.Float64bits(d))
	case complex128:
		fmt.Fprintf(out, `["%016x","%016x"]`, math.Float64bits(real(d)), math.Float64bits(imag(d)))
	case []byte:
		fmt.Fprintf(out, `"%x"`, d)
	case string:
		out.WriteString(text(d))
	case *Opaque:
		fmt.Fprintf(out, `{"opaque":"%x"}`, d.Bytes)
	case *Held:
		fmt.Fprintf(out, `{"interface":{"name":%s,"type":%d,"value":`, text(d.Name), d.Type.ID)
		showData(out, d.Value)
		out.WriteString("}}")
	case []any, []Pair, *Struct:
		out.WriteByte('[')
		showParts(out, d)
		out.WriteByte(']')
	default:
		fmt.Fprint(out, d)
	}
}

func showParts(out *strings.Builder, data any) {
	switch d := data.(type) {
	case []any:
		for n, element := range d {
			comma(out, n)
			showData(out, element)
		}
	case []Pair:
		for n, pair := range d {
			comma(out, n)
			showData(out, []any{pair.Key, pair.Elem})
		}
	case *Struct:
		for n, field := range d.Fields {
			comma(out, n)
			fmt.Fprintf(out, `[%d,%s,`, field.Number, text(field.Name))
			showData(out, field.Value)
			out.WriteByte(']')
		}
	}
}

func comma(out *strings.Builder, n int) {
	if n > 0 {
		out.WriteByte(',')
	}
}

func text(s string) string {
	if !utf8.ValidString(s) {
		return fmt.Sprintf(`{"hex":"%x"}`, s)
	}
	return `"` + escapes.Replace(s) + `"`
}

var escapes = func() *strings.Replacer {
	pairs := []string{`"`, `\"`, `\`, `\\`, "\b", `\b`, "\t", `\t`, "\n", `\n`, "\f", `\f`, "\r", `\r`}
	for c := 0; c < 0x20; c++ {
		if !strings.ContainsRune("\b\t\n\f\r", rune(c)) {
			pairs = append(pairs, string(rune(c)), fmt.Sprintf(`\u%04x`, c))
		}
	}
	return strings.NewReplacer(pairs...)
}()
