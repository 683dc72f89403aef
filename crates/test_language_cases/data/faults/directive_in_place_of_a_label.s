.word: 1
