// Writes logins.gob, the stream that the README shows:
//
//	go run logins.go >logins.gob
package main

import (
	"encoding/gob"
	"log"
	"os"
	"time"
)

// Login is what a service keeps of somebody who logged in.
type Login struct {
	User  string
	Tries int
	At    time.Time
	Tags  map[string][]int
}

func main() {
	encoder := gob.NewEncoder(os.Stdout)
	at := time.Date(2026, 11, 26, 8, 30, 0, 0, time.UTC)
	for _, login := range []Login{
		{"ann", 3, at, map[string][]int{"ip": {10, 0, 0, 7}}},
		{User: "bob", At: at.Add(95 * time.Second)},
	} {
		if err := encoder.Encode(login); err != nil {
			log.Fatal(err)
		}
	}
}
