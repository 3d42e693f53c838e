// Parses source.go with go/parser a few times, and prints the microseconds that each parse took.
package main

import (
	"fmt"
	"go/parser"
	"go/token"
	"os"
	"time"
)

func main() {
	text, err := os.ReadFile("source.go")
	if err != nil {
		panic(err)
	}
	for round := 0; round < 5; round++ {
		start := time.Now()
		_, err := parser.ParseFile(token.NewFileSet(), "source.go", text, parser.SkipObjectResolution)
		fmt.Println("go/parser", len(text), 0, time.Since(start).Microseconds(), err == nil)
	}
}
