"""A second reading of a model, and the comparison of a module with it by Yosys and ABC.

It shares nothing with the program but the texts: the model, the plan and the module.
"""
