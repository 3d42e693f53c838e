// Checks the packages below some folders with Go's own type checker, and prints for each folder `# FOLDER`, and behind it
// PATH:LINE MESSAGE for each error. With the word -bindings it prints instead PATH:#OFFSET is PATH:#OFFSET for each identifier and
// what declares it.
package main

import (
	"fmt"
	"go/ast"
	"go/parser"
	"go/token"
	"go/types"
	"io/fs"
	"os"
	"path/filepath"
	"sort"
)

// A loader finds the packages of one folder, each by its path in it.
type loader struct {
	folder   string
	places   *token.FileSet
	checked  map[string]*types.Package
	bindings bool
}

// place tells a position as PATH:#OFFSET.
func (l *loader) place(at token.Pos) string {
	place := l.places.Position(at)
	path, _ := filepath.Rel(l.folder, place.Filename)
	return fmt.Sprintf("%s:#%d", path, place.Offset)
}

func (l *loader) tellBindings(found map[*ast.Ident]types.Object) {
	for name, object := range found {
		if object != nil && object.Pos().IsValid() {
			fmt.Printf("%s is %s\n", l.place(name.Pos()), l.place(object.Pos()))
		}
	}
}

func (l *loader) tell(place token.Position, message string) {
	if l.bindings {
		return
	}
	path, _ := filepath.Rel(l.folder, place.Filename)
	fmt.Printf("%s:%d %s\n", path, place.Line, message)
}

func (l *loader) parse(path string) []*ast.File {
	names, _ := filepath.Glob(filepath.Join(l.folder, path, "*.go"))
	sort.Strings(names)
	var files []*ast.File
	for _, name := range names {
		file, err := parser.ParseFile(l.places, name, nil, 0)
		if err != nil {
			l.tell(token.Position{Filename: name, Line: 1}, err.Error())
			continue
		}
		files = append(files, file)
	}
	return files
}

// Import checks a package where it was not checked yet.
func (l *loader) Import(path string) (*types.Package, error) {
	if found, ok := l.checked[path]; ok {
		if found == nil {
			return nil, fmt.Errorf("import cycle")
		}
		return found, nil
	}
	l.checked[path] = nil
	files := l.parse(path)
	if len(files) == 0 {
		return nil, fmt.Errorf("no package %s", path)
	}
	config := types.Config{Importer: l, Error: func(err error) {
		told := err.(types.Error)
		l.tell(l.places.Position(told.Pos), told.Msg)
	}}
	info := &types.Info{Defs: map[*ast.Ident]types.Object{}, Uses: map[*ast.Ident]types.Object{}}
	found, _ := config.Check(path, l.places, files, info)
	if l.bindings {
		l.tellBindings(info.Defs)
		l.tellBindings(info.Uses)
	}
	l.checked[path] = found
	return found, nil
}

func packages(folder string) []string {
	seen := map[string]bool{}
	var paths []string
	filepath.WalkDir(folder, func(path string, entry fs.DirEntry, err error) error {
		if err == nil && filepath.Ext(path) == ".go" {
			below, _ := filepath.Rel(folder, filepath.Dir(path))
			if !seen[below] {
				seen[below] = true
				paths = append(paths, below)
			}
		}
		return nil
	})
	sort.Strings(paths)
	return paths
}

func main() {
	folders := os.Args[1:]
	bindings := len(folders) > 0 && folders[0] == "-bindings"
	if bindings {
		folders = folders[1:]
	}
	for _, folder := range folders {
		fmt.Printf("# %s\n", folder)
		l := &loader{folder, token.NewFileSet(), map[string]*types.Package{}, bindings}
		for _, path := range packages(folder) {
			l.Import(path)
		}
	}
}
