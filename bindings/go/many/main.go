// Many COUNT [FORM] validates so many documents, all of one form if it is given, and prints how many errors they have.
package main

import (
	"fmt"
	"os"
	"strconv"

	"vorxindak"
)

var forms = []string{
	"query q%d($name: String!) { greeting(name: $name) }",
	"{ greeting(nam: \"%d\") { length } }",
	"{ field%d }",
	"{ greeting%d(",
}

func main() {
	count, err := strconv.Atoi(os.Args[1])
	if err != nil {
		panic(err)
	}
	if len(os.Args) > 2 {
		form, err := strconv.Atoi(os.Args[2])
		if err != nil {
			panic(err)
		}
		forms = forms[form : form+1]
	}
	schema, err := vorxindak.Open("type Query { greeting(name: String!): String }")
	if err != nil {
		panic(err)
	}
	defer schema.Close()
	errors := 0
	for i := 0; i < count; i++ {
		found, err := schema.Validate(fmt.Sprintf(forms[i%len(forms)], i), vorxindak.Options{})
		if err != nil {
			panic(err)
		}
		errors += len(found)
	}
	fmt.Println(errors)
}
