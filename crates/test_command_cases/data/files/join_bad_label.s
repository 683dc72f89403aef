a: .import first
