package jwt

import (
	"go/ast"
	"go/parser"
	"go/token"
	"io/fs"
	"strings"
	"testing"
)

// TestSource looks for two slips in the source. A return that has a variable, and a call that gets its address: the specification of Go
// leaves open which is first. And an assertion of a type whose failure is not looked at.
func TestSource(t *testing.T) {
	files := token.NewFileSet()
	isSource := func(it fs.FileInfo) bool { return !strings.HasSuffix(it.Name(), "_test.go") }
	packages, err := parser.ParseDir(files, ".", isSource, 0)
	if err != nil || len(packages["jwt"].Files) < 4 {
		t.Fatal(err, packages)
	}
	isChecked := map[ast.Node]bool{}
	ast.Inspect(packages["jwt"], func(node ast.Node) bool {
		switch it := node.(type) {
		case *ast.AssignStmt:
			isChecked[it.Rhs[0]] = len(it.Lhs) == 2 && len(it.Rhs) == 1
		case *ast.TypeAssertExpr:
			if it.Type != nil && !isChecked[it] {
				t.Errorf("%v: an assertion that is not checked", files.Position(it.Pos()))
			}
		case *ast.ReturnStmt:
			if name := changedInReturn(it); name != "" {
				t.Errorf("%v: %s is read and changed", files.Position(it.Pos()), name)
			}
		}
		return true
	})
}

// changedInReturn returns the name of a variable that is a result, and whose address another result takes.
func changedInReturn(statement *ast.ReturnStmt) string {
	read, found := map[string]bool{}, ""
	for _, it := range statement.Results {
		if name, is := it.(*ast.Ident); is {
			read[name.Name] = true
		}
	}
	ast.Inspect(statement, func(node ast.Node) bool {
		if it, is := node.(*ast.UnaryExpr); is && it.Op == token.AND {
			if name, is := it.X.(*ast.Ident); is && read[name.Name] {
				found = name.Name
			}
		}
		return true
	})
	return found
}
