// Scans, parses and type-checks the Go files below a folder, whose packages are named by their paths there. Each step goes over all files.
// Prints for each step its name, the seconds that it took, and the most MiB of memory until its end.
package main

import (
	"bufio"
	"fmt"
	"go/ast"
	"go/parser"
	"go/scanner"
	"go/token"
	"go/types"
	"os"
	"path/filepath"
	"sort"
	"strings"
	"time"
)

type source struct {
	path string
	text []byte
}

// must ends the program where there is an error.
func must(err error) {
	if err != nil {
		fmt.Fprintln(os.Stderr, err)
		os.Exit(1)
	}
}

// read reads the Go files below a folder.
func read(top string) (sources []source) {
	must(filepath.Walk(top, func(path string, _ os.FileInfo, err error) error {
		if err != nil || !strings.HasSuffix(path, ".go") {
			return err
		}
		text, err := os.ReadFile(path)
		must(err)
		path, err = filepath.Rel(top, path)
		sources = append(sources, source{path, text})
		return err
	}))
	return sources
}

// peak is the most MiB that the program has had.
func peak() (kibibytes float64) {
	status, err := os.Open("/proc/self/status")
	must(err)
	defer status.Close()
	for lines := bufio.NewScanner(status); lines.Scan(); {
		if n, _ := fmt.Sscanf(lines.Text(), "VmHWM: %f kB", &kibibytes); n == 1 {
			return kibibytes / 1024
		}
	}
	return 0
}

func step(name string, act func()) {
	start := time.Now()
	act()
	fmt.Printf("%s %.6f %.1f\n", name, time.Since(start).Seconds(), peak())
}

func scan(sources []source) {
	files := token.NewFileSet()
	for _, one := range sources {
		var s scanner.Scanner
		s.Init(files.AddFile(one.path, files.Base(), len(one.text)), one.text, nil, 0)
		for kind := token.ILLEGAL; kind != token.EOF; {
			_, kind, _ = s.Scan()
		}
	}
}

// A checker checks each package once, behind those that it imports.
type checker struct {
	files *token.FileSet
	trees map[string][]*ast.File
	done  map[string]*types.Package
	info  types.Info
}

func (c *checker) parse(sources []source) {
	for _, one := range sources {
		tree, err := parser.ParseFile(c.files, one.path, one.text, parser.SkipObjectResolution)
		must(err)
		path := filepath.ToSlash(filepath.Dir(one.path))
		c.trees[path] = append(c.trees[path], tree)
	}
}

func (c *checker) Import(path string) (*types.Package, error) {
	if c.done[path] == nil {
		settings := types.Config{Importer: c}
		checked, err := settings.Check(path, c.files, c.trees[path], &c.info)
		must(err)
		c.done[path] = checked
	}
	return c.done[path], nil
}

func (c *checker) check() {
	var paths []string
	for path := range c.trees {
		paths = append(paths, path)
	}
	sort.Strings(paths)
	for _, path := range paths {
		_, err := c.Import(path)
		must(err)
	}
}

func main() {
	sources := read(os.Args[1])
	step("go/scanner", func() { scan(sources) })
	c := &checker{token.NewFileSet(), map[string][]*ast.File{}, map[string]*types.Package{}, types.Info{
		Types:      map[ast.Expr]types.TypeAndValue{},
		Defs:       map[*ast.Ident]types.Object{},
		Uses:       map[*ast.Ident]types.Object{},
		Selections: map[*ast.SelectorExpr]*types.Selection{},
	}}
	step("go/parser", func() { c.parse(sources) })
	step("go/types", c.check)
}
