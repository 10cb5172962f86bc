// Shapes: templates, variants, arrays, member pointers.
#include <array>
#include <cmath>
#include <optional>
#include <variant>

namespace shapes {
template <typename T> struct Point { T x, y; };
struct Circle { Point<double> at; double radius; };
struct Box { Point<double> low, high; };
union Raw { float number; unsigned bits; unsigned char bytes[4]; };
using Shape = std::variant<Circle, Box>;

template <typename Scalar, std::size_t Rows, std::size_t Columns> class Matrix {
  public:
    Scalar &at(std::size_t row, std::size_t column) { return cells_[row][column]; }
    template <std::size_t Other> Matrix<Scalar, Rows, Other> times(Matrix<Scalar, Columns, Other> &other) {
        Matrix<Scalar, Rows, Other> all;
        for (std::size_t r = 0; r < Rows; ++r)
            for (std::size_t c = 0; c < Other; ++c)
                for (std::size_t k = 0; k < Columns; ++k) all.at(r, c) += at(r, k) * other.at(k, c);
        return all;
    }

  private:
    std::array<std::array<Scalar, Columns>, Rows> cells_{};
};

double area(const Shape &shape) {
    if (auto circle = std::get_if<Circle>(&shape)) return M_PI * circle->radius * circle->radius;
    const Box &box = std::get<Box>(shape);
    return (box.high.x - box.low.x) * (box.high.y - box.low.y);
}
}

double run_shapes(unsigned seed) {
    shapes::Matrix<double, 3, 4> a;
    shapes::Matrix<double, 4, 2> b;
    shapes::Raw raw{};
    raw.bits = seed;
    std::optional<shapes::Shape> shape = shapes::Circle{{0, 0}, raw.bytes[0] + 1.0};
    double shapes::Circle::*member = &shapes::Circle::radius;
    return a.times(b).at(0, 0) + shapes::area(*shape) + std::get<shapes::Circle>(*shape).*member;
}
