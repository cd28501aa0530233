// A client over gokrb5 (Debian's package golang-github-jcmturner-gokrb5.v8-dev). It prints its token in hex, and verifies no answer.
//
//	client SERVICE spnego     SERVICE as HTTP/localhost
//	client URL                gets a page, and prints the status and the page
package main

import (
	"encoding/hex"
	"fmt"
	"io"
	"log"
	"net/http"
	"os"
	"strings"

	"github.com/jcmturner/gokrb5/v8/client"
	"github.com/jcmturner/gokrb5/v8/config"
	"github.com/jcmturner/gokrb5/v8/credentials"
	"github.com/jcmturner/gokrb5/v8/gssapi"
	"github.com/jcmturner/gokrb5/v8/spnego"
)

func must(fault error) {
	if fault != nil {
		log.Fatal(fault)
	}
}

func user() *client.Client {
	settings, fault := config.Load(os.Getenv("KRB5_CONFIG"))
	must(fault)
	cache, fault := credentials.LoadCCache(os.Getenv("KRB5CCNAME"))
	must(fault)
	made, fault := client.NewFromCCache(cache, settings, client.DisablePAFXFAST(true))
	must(fault)
	return made
}

func page(url string) {
	response, fault := spnego.NewClient(user(), http.DefaultClient, "").Get(url)
	must(fault)
	text, fault := io.ReadAll(response.Body)
	must(fault)
	fmt.Println(response.StatusCode, strings.TrimSpace(string(text)))
}

func token(service string) {
	var token gssapi.ContextToken
	token, fault := spnego.SPNEGOClient(user(), service).InitSecContext()
	must(fault)
	bytes, fault := token.Marshal()
	must(fault)
	fmt.Println(hex.EncodeToString(bytes))
}

func main() {
	if len(os.Args) == 2 {
		page(os.Args[1])
	} else {
		token(os.Args[1])
	}
}
