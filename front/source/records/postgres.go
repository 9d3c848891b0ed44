//go:build postgres

package records

import (
	"context"
	"database/sql"
	"fmt"
	"strconv"
	"strings"
	"time"

	"github.com/lib/pq"

	"review-front/source/form"
	"review-front/source/values"
)

// WithPostgres says whether databases can be asked.
const WithPostgres = true

// connectionOf is how a database is reached, with the password of a file.
func connectionOf(s *form.Source, from *form.Postgres) (string, error) {
	words := from.Connection
	if strings.HasPrefix(words, "postgres://") || strings.HasPrefix(words, "postgresql://") {
		read, err := pq.ParseURL(words)
		if err != nil {
			return "", err
		}
		words = read
	}
	password, err := secret(s, from.PasswordFile)
	if err != nil || password == "" {
		return words, err
	}
	return words + " password='" + strings.NewReplacer(`\`, `\\`, `'`, `\'`).Replace(password) + "'", nil
}

// readPostgres reads the rows of a query, which may change nothing.
func readPostgres(ctx context.Context, s *form.Source, from *form.Postgres, to *reading) error {
	words, err := connectionOf(s, from)
	if err != nil {
		return err
	}
	database, err := sql.Open("postgres", words)
	if err != nil {
		return fmt.Errorf("the database: %w", err)
	}
	defer database.Close()
	within, err := database.BeginTx(ctx, &sql.TxOptions{ReadOnly: true})
	if err != nil {
		return fmt.Errorf("the database: %w", err)
	}
	defer func() { _ = within.Rollback() }()
	rows, err := within.QueryContext(ctx, from.Query)
	if err != nil {
		return fmt.Errorf("the query: %w", err)
	}
	defer rows.Close()
	if err := takeRows(rows, to); err != nil {
		return fmt.Errorf("the query: %w", err)
	}
	return nil
}

// takeRows takes all rows: an error behind some of them is one of all.
func takeRows(rows *sql.Rows, to *reading) error {
	columns, err := rows.ColumnTypes()
	if err != nil {
		return err
	}
	seen := map[string]int{}
	values, places := make([]any, len(columns)), make([]any, len(columns))
	for i, column := range columns {
		places[i] = &values[i]
		seen[column.Name()]++
	}
	for _, field := range inOrder(to.kind.Fields()) {
		if seen[field] != 1 {
			return fmt.Errorf("%q is the name of %d of its columns", field, seen[field])
		}
		to.seen[field] = true
	}
	for number := 1; rows.Next(); number++ {
		if err := rows.Scan(places...); err != nil {
			return err
		}
		fields := make(Fields, len(columns))
		for i, column := range columns {
			texts, err := columnTexts(values[i], column.DatabaseTypeName())
			if err != nil {
				return fmt.Errorf("row %d, %s: %w", number, column.Name(), err)
			}
			fields[column.Name()] = texts
		}
		to.take(fmt.Sprintf("row %d of the query", number), fields)
	}
	return rows.Err()
}

// columnTexts are the values of a column: those of an array, or one, or none.
func columnTexts(value any, kind string) ([]string, error) {
	if array := strings.HasPrefix(kind, "_"); array && value != nil {
		var texts []sql.NullString
		if err := pq.Array(&texts).Scan(value); err != nil {
			return nil, err
		}
		var all []string
		for _, text := range texts {
			if text.Valid {
				all = append(all, text.String)
			}
		}
		return all, nil
	}
	switch value := value.(type) {
	case nil:
		return nil, nil
	case int64:
		return []string{strconv.FormatInt(value, 10)}, nil
	case bool:
		return []string{strconv.FormatBool(value)}, nil
	case []byte:
		return []string{string(value)}, nil
	case string:
		return []string{value}, nil
	case time.Time:
		return []string{momentOf(value, kind)}, nil
	}
	return []string{fmt.Sprint(value)}, nil
}

// momentOf is a day, a time or a moment as the types have them that take it without a form; moments with a zone in UTC.
func momentOf(at time.Time, kind string) string {
	switch kind {
	case "DATE":
		return at.Format(values.Layouts["date"])
	case "TIME", "TIMETZ":
		return at.UTC().Format(values.Layouts["time"])
	}
	return at.UTC().Format(values.Layouts["dateTime"])
}
