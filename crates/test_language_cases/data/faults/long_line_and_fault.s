nop
frob                                                                                                                                                                                                                                                            
nop
