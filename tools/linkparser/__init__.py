"""Reads the data directory of a language of link-parser 5 and writes it in the formats of lgparse.

    tokens      words and signs of the text of a dictionary
    formula     formulas: what they are, what they cost, how lgparse writes them
    dialect     the costs of dialects
    dictionary  the entries of a dictionary, with what they include
    words       how words are written
    classes     the files of regular expressions and of affixes
    labels      the labels that links can have, and the patterns that fit them
    knowledge   the rules of post-processing
    convert     the dictionary, word by word
    report      what was left out or changed
    command     the command line
"""
