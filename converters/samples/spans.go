// Two branches of a bank as spans of OpenTelemetry: made spans.json, by Debian's golang-opentelemetry-otel-dev 1.1.0, as
//
//     GO111MODULE=off GOPATH=/usr/share/gocode go run spans.go > spans.json
package main

import (
	"context"
	"os"

	"go.opentelemetry.io/otel/attribute"
	"go.opentelemetry.io/otel/exporters/stdout/stdouttrace"
	"go.opentelemetry.io/otel/sdk/resource"
	sdk "go.opentelemetry.io/otel/sdk/trace"
	"go.opentelemetry.io/otel/trace"
)

func branch(name string) trace.Tracer {
	exporter, err := stdouttrace.New(stdouttrace.WithWriter(os.Stdout))
	if err != nil {
		panic(err)
	}
	own := resource.NewWithAttributes("", attribute.String("service.instance.id", name))
	return sdk.NewTracerProvider(sdk.WithSyncer(exporter), sdk.WithResource(own)).Tracer("bank")
}

func call(at trace.Tracer, operation string, account string, amount int, seen ...trace.SpanContext) trace.SpanContext {
	links := []trace.Link{}
	for _, it := range seen {
		links = append(links, trace.Link{SpanContext: it})
	}
	_, span := at.Start(context.Background(), operation, trace.WithLinks(links...), trace.WithAttributes(
		attribute.String("cise.call", operation), attribute.String("cise.arg.a", account), attribute.Int("cise.arg.n", amount)))
	span.End()
	return span.SpanContext()
}

func main() {
	one, two := branch("branch 0"), branch("branch 1")
	deposit := call(one, "deposit", "Ann", 100)
	paid := call(one, "withdraw", "Ann", 60, deposit)
	_, other := one.Start(context.Background(), "select")
	other.End()
	call(two, "withdraw", "Ann", 30, paid)
	call(two, "withdraw", "Bob", 10, deposit)
}
