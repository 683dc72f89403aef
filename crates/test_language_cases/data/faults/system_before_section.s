.data
jpc
