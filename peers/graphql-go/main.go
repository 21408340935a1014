// The demo over graph-gophers/graphql-go: main DEMO.graphql FILE.. prints for each file the microseconds of processor time (user and
// system) that one request takes, read, validated, executed and written as JSON. main DEMO.graphql --serve PORT answers requests over HTTP.
package main

import (
	"context"
	"encoding/json"
	"errors"
	"fmt"
	"net/http"
	"os"
	"path/filepath"
	"strings"
	"syscall"

	graphql "github.com/graph-gophers/graphql-go"
	"github.com/graph-gophers/graphql-go/relay"
)

type cell struct{ n int32 }

func (c *cell) A() int32 { return 10 + c.n }
func (c *cell) B() int32 { return 20 + c.n }

type character interface {
	ID() graphql.ID
	Name() string
	AppearsIn() []string
	Friends() *[]*characterResolver
	Secret() (string, error)
}

type characterResolver struct{ character }

func (c *characterResolver) ToDroid() (*droid, bool) { d, ok := c.character.(*droid); return d, ok }
func (c *characterResolver) ToHuman() (*human, bool) { h, ok := c.character.(*human); return h, ok }

type droid struct{}

func (*droid) ID() graphql.ID                 { return "2001" }
func (*droid) Name() string                   { return "R2-D2" }
func (*droid) AppearsIn() []string            { return []string{"NEWHOPE", "EMPIRE", "JEDI"} }
func (*droid) Friends() *[]*characterResolver { return &[]*characterResolver{{&human{}}, nil} }
func (*droid) Secret() (string, error)        { return "", errors.New("secret is secret") }
func (*droid) PrimaryFunction() *string       { s := "Astromech"; return &s }

type human struct{}

func (*human) ID() graphql.ID                 { return "1000" }
func (*human) Name() string                   { return "Luke Skywalker" }
func (*human) AppearsIn() []string            { return []string{"NEWHOPE", "EMPIRE", "JEDI"} }
func (*human) Friends() *[]*characterResolver { return &[]*characterResolver{{&droid{}}} }
func (*human) Secret() (string, error)        { return "", errors.New("secret is secret") }
func (*human) Height() *int32                 { h := int32(172); return &h }

type root struct{}

func (*root) ID() graphql.ID { return "q1" }
func (*root) Name() string   { return "demo" }
func (*root) Number(args struct{ Plus int32 }) *int32 {
	sum := args.Plus + 41
	return &sum
}
func (*root) Nothing() *string { return nil }
func (*root) Odd() *int32      { return nil }
func (*root) Hero(args struct{ Episode *string }) *characterResolver {
	if args.Episode != nil && *args.Episode == "EMPIRE" {
		return &characterResolver{&human{}}
	}
	return &characterResolver{&droid{}}
}
func (*root) MustHero() *characterResolver { return &characterResolver{&droid{}} }
func (*root) Ids() *[]int32                { return &[]int32{1} }
func (*root) Grid() *[][]*cell             { return &[][]*cell{{{0}}, {{1}}} }
func (*root) Holes() [][]*cell             { return [][]*cell{{{0}, nil}} }
func (*root) Fail() (*int32, error)        { return nil, errors.New("failed") }

func spent() float64 {
	var usage syscall.Rusage
	if err := syscall.Getrusage(syscall.RUSAGE_SELF, &usage); err != nil {
		panic(err)
	}
	return float64(usage.Utime.Sec+usage.Stime.Sec)*1e6 + float64(usage.Utime.Usec+usage.Stime.Usec)
}

func main() {
	text, err := os.ReadFile(os.Args[1])
	if err != nil {
		panic(err)
	}
	// The demo's mutations have a field of the name of a query's, of another type: one root cannot resolve both.
	queries := strings.Replace(string(text), "  mutation: Mutation\n", "", 1)
	schema := graphql.MustParseSchema(queries, &root{}, graphql.MaxParallelism(1))
	if len(os.Args) == 4 && os.Args[2] == "--serve" {
		panic(http.ListenAndServe("127.0.0.1:"+os.Args[3], &relay.Handler{Schema: schema}))
	}
	for _, file := range os.Args[2:] {
		request, err := os.ReadFile(file)
		if err != nil {
			panic(err)
		}
		answer := func() {
			if _, err := json.Marshal(schema.Exec(context.Background(), string(request), "", nil)); err != nil {
				panic(err)
			}
		}
		times := 20000
		for i := 0; i < times; i++ {
			answer()
		}
		before := spent()
		for i := 0; i < times; i++ {
			answer()
		}
		fmt.Printf("%s %.1f\n", filepath.Base(file), (spent()-before)/float64(times))
	}
}
