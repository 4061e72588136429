"""The description agrees with the routes, and with itself."""

import json

from kit import Case
from nashirudder_gateway import models, routes


def references(told):
    if isinstance(told, dict):
        for key, value in told.items():
            if key == "$ref":
                yield value
            yield from references(value)
    elif isinstance(told, list):
        for value in told:
            yield from references(value)


class OpenApi(Case):
    async def test_each_route_is_served_and_described(self):
        async with self.gateway() as it:
            status, told, _ = await it.ask("GET", "/openapi.json")
            served = {(route.method, route.resource.canonical) for route in it.server.app.router.routes() if route.method != "HEAD"}
            described = {(method.upper(), path) for path, methods in told["paths"].items() for method in methods}
            self.assertEqual((status, served), (200, described))

    async def test_each_reference_is_there(self):
        told = routes.describe()
        self.assertEqual({text.rpartition("/")[2] for text in references(told)}, set(told["components"]["schemas"]))
        names = [operation["operationId"] for methods in told["paths"].values() for operation in methods.values()]
        self.assertEqual(len(set(names)), len(names))
        self.assertEqual(json.loads(json.dumps(told)), told)

    async def test_answers_have_the_form_that_is_described(self):
        async with self.gateway() as it:
            _, errand, _ = await it.post(0, 18, "k")
            for path, model in [("/errands/1", models.ErrandView), ("/errands", models.ErrandList), ("/robots", models.RobotList),
                                ("/robots/1", models.RobotView), ("/site", models.SiteView), ("/ready", models.Health), ("/errands/9", models.Problem)]:
                _, told, _ = await it.ask("GET", path)
                self.assertEqual(set(model.parse_obj(told).dict()), set(told), path)
            self.assertEqual(models.ErrandView.parse_obj(errand).key, "k")
