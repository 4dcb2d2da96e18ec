doc("examples/books.xml")
