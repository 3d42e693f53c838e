// Scans source.go with go/scanner a few times, and prints the microseconds that each reading and each scan took.
package main

import (
	"fmt"
	"go/scanner"
	"go/token"
	"os"
	"time"
)

func main() {
	for round := 0; round < 5; round++ {
		start := time.Now()
		text, err := os.ReadFile("source.go")
		if err != nil {
			panic(err)
		}
		reading := time.Since(start)
		start = time.Now()
		files := token.NewFileSet()
		file := files.AddFile("source.go", files.Base(), len(text))
		var s scanner.Scanner
		s.Init(file, text, nil, 0)
		tokens := 0
		for {
			if _, kind, _ := s.Scan(); kind == token.EOF {
				break
			}
			tokens++
		}
		fmt.Println("go/scanner", len(text), reading.Microseconds(), time.Since(start).Microseconds(), tokens)
	}
}
