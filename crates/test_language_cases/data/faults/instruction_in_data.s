.data
here: b here
