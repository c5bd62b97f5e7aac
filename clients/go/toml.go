package ibcplan

import (
	"fmt"
	"reflect"
	"sort"
	"strconv"
	"strings"
)

// A Table has the keys of a script, a setup, a turn, or of a table in one of these. Its values are truths, whole numbers, texts,
// tables, and slices of these.
type Table map[string]any

// Document writes a script, a setup or a turn as TOML, with a line for each key.
func Document(table Table) (string, error) {
	var text strings.Builder
	for _, key := range keysOf(table) {
		value, err := valueText(reflect.ValueOf(table[key]))
		if err != nil {
			return "", fmt.Errorf("%s: %w", key, err)
		}
		fmt.Fprintf(&text, "%s = %s\n", quoted(key), value)
	}
	return text.String(), nil
}

func keysOf(table Table) []string {
	keys := make([]string, 0, len(table))
	for key := range table {
		keys = append(keys, key)
	}
	sort.Strings(keys)
	return keys
}

// valueText writes a value on one line.
func valueText(value reflect.Value) (string, error) {
	switch value.Kind() {
	case reflect.Interface:
		return valueText(value.Elem())
	case reflect.Bool:
		return strconv.FormatBool(value.Bool()), nil
	case reflect.Int, reflect.Int8, reflect.Int16, reflect.Int32, reflect.Int64:
		return strconv.FormatInt(value.Int(), 10), nil
	case reflect.Uint, reflect.Uint8, reflect.Uint16, reflect.Uint32, reflect.Uint64:
		return strconv.FormatUint(value.Uint(), 10), nil
	case reflect.String:
		return quoted(value.String()), nil
	case reflect.Slice, reflect.Array:
		parts := make([]string, value.Len())
		for place := range parts {
			part, err := valueText(value.Index(place))
			if err != nil {
				return "", err
			}
			parts[place] = part
		}
		return "[" + strings.Join(parts, ", ") + "]", nil
	case reflect.Map:
		table, isTable := value.Interface().(Table)
		if !isTable {
			break
		}
		parts := make([]string, 0, len(table))
		for _, key := range keysOf(table) {
			part, err := valueText(reflect.ValueOf(table[key]))
			if err != nil {
				return "", err
			}
			parts = append(parts, quoted(key)+" = "+part)
		}
		return "{" + strings.Join(parts, ", ") + "}", nil
	}
	return "", fmt.Errorf("a script has no value of the kind %s", value.Kind())
}

// quoted writes a text, or a key, in quotes.
func quoted(text string) string {
	var written strings.Builder
	written.WriteByte('"')
	for _, character := range text {
		switch {
		case character == '"' || character == '\\':
			written.WriteByte('\\')
			written.WriteRune(character)
		case character < ' ' || character == 0x7f:
			fmt.Fprintf(&written, "\\u%04x", character)
		default:
			written.WriteRune(character)
		}
	}
	written.WriteByte('"')
	return written.String()
}
