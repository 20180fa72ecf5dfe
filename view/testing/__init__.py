"""Tests for an implementation, made of a specification, and their carrying out.

    form        the file of cases: what is called and taken, what each must answer, the states
    adapter     the process that stands for the implementation
    running     carries cases out, and tells the first difference
    shrinking   makes a failing case shorter
    told        what people and JUnit are told
    drive       the word `drive`
    covering    what a specification's cases have to cover
    generating  the word `tests`
"""
